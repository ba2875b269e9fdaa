# What a user runs. It needs the kit's rt on PATH, make, bash, grep, sed and coreutils; test also what tools/test-tools names.
PREFIX = /usr/local
PROGRAM = crates/arc_server/out/arc_server
# the programs that were built beside it: crates/NAME/out/NAME, or PROGRAM-book and PROGRAM-screen beside another PROGRAM
OTHER = $(if $(findstring arc_server/out/arc_server,$(PROGRAM)),$(subst arc_server,arc_$1,$(PROGRAM)),$(PROGRAM)-$1)
BOOK = $(call OTHER,book)
SCREEN = $(call OTHER,screen)
UNITS = arc.service arc-lines.service arc-datagrams.service arc-udp.service arc-watch.service arc-watch.timer arc-restart.service arc-restart.timer \
	arc-backup.service arc-backup.timer arc-book.service arc-book.timer arc-feed.socket arc-feed@.service arc-mirror.service arc-mirror.timer
PAGES = man1/arc.1 man1/arc-book.1 man1/arc-screen.1 man5/arc-setup.5 man7/arc-desk.7
VERSION = $(shell cat VERSION)
ROOT = $(DESTDIR)$(PREFIX)

.PHONY: try build demo test test-tools install install-files uninstall clean

# proves and builds the programs, a line for each crate, and says where they stand; what was proved before is proved again only
# where it has changed
build:
	@tools/build
	@tools/build arc_book
	@tools/build arc_screen

# builds the program without any proof, in a minute or two, and shows what a receiver does: one alarm frame in, its acknowledgement out,
# and a burglary alarm that an operator works. The program that is installed is the one that build proves
try:
	@tools/quick out/unproved
	@tools/demo out/unproved
	@example/day out/unproved alarm
	@echo 'try: NOTHING of this program was proved. make demo proves all of it, and shows the same and more'

# one alarm frame in, its acknowledgement out; and the first minute of the example station's day
demo: build
	@tools/demo $(PROGRAM)
	@example/day $(PROGRAM) minute

# the gate: proves and tests everything, but for what an earlier run on this machine passed where the kit keeps that, and checks the built
# program; what this machine lacks for that is named, and not installed
test:
	@.ci/run

# installs what the check of the built program uses and this machine lacks, by apt-get, and says before what that is
test-tools:
	@tools/test-tools install

# puts the programs as PREFIX/bin/arc, arc-book and arc-screen, their manual pages and units, the user of the units, and the tools of the guide
install: build install-files

# the same with the program that PROGRAM names and those beside it, as they were built before
install-files:
	install -D -m 755 '$(PROGRAM)' '$(ROOT)/bin/arc'
	install -D -m 755 '$(BOOK)' '$(ROOT)/bin/arc-book'
	install -D -m 755 -t '$(ROOT)/bin' station/arc-screen
	install -D -m 755 '$(SCREEN)' '$(ROOT)/bin/arc_screen'
	for page in $(PAGES); do \
		install -d '$(ROOT)/share/man/'"$${page%/*}" && \
		sed 's|@VERSION@|$(VERSION)|g' "station/$${page#*/}" >'$(ROOT)/share/man/'"$$page" && \
		chmod 644 '$(ROOT)/share/man/'"$$page" || exit 1; \
	done
	install -D -m 644 -t '$(ROOT)/share/arc' tools/panel
	install -D -m 755 -t '$(ROOT)/share/arc' tools/visible station/watch station/check-setup station/backup station/copy-journal station/book \
		station/month station/make-sites station/feed station/mirror station/take-over
	install -D -m 644 -t '$(ROOT)/share/doc/arc' README.md docs/OPERATING.md docs/DESK.md docs/SCREEN.md docs/PANELS.md \
		example/setup.txt VERSION
	install -D -m 644 station/arc.sysusers '$(ROOT)/lib/sysusers.d/arc.conf'
	install -d '$(ROOT)/lib/systemd/system'
	for unit in $(UNITS); do \
		sed 's|@PREFIX@|$(PREFIX)|g' "station/$$unit" >'$(ROOT)/lib/systemd/system/'"$$unit" && \
		chmod 644 '$(ROOT)/lib/systemd/system/'"$$unit" || exit 1; \
	done

# takes away what install has put; the station's folder and its user stay
uninstall:
	rm -f '$(ROOT)/bin/arc' '$(ROOT)/bin/arc-book' '$(ROOT)/bin/arc-screen' '$(ROOT)/bin/arc_screen' $(PAGES:%='$(ROOT)/share/man/%')
	rm -f '$(ROOT)/lib/sysusers.d/arc.conf' $(UNITS:%='$(ROOT)/lib/systemd/system/%')
	rm -rf '$(ROOT)/share/arc' '$(ROOT)/share/doc/arc'

clean:
	rm -rf out crates/*/out
