# What one runs here; `make` alone tells. Each target works from a fresh clone; host/host.sh fetches what it lacks.
.PHONY: help preview ox install uninstall test library dist crates compare bench record
.DEFAULT_GOAL := help

# a line a target: what it does, and how long it takes on two quiet processors, the first time and again
help:
	@echo 'Oxbreathe: what importing an amateur radio log (ADIF) would do, before anything is imported'
	@echo
	@echo '  make preview FILE=samples/club.adi  what importing a file would do        a minute, once; then at once'
	@echo '  make ox                             the tool for the log desk, target/ox  as long, once'
	@echo '  make install PREFIX=/usr/local      ox, its manual page and completions   as long, once'
	@echo '  make uninstall PREFIX=/usr/local    takes them away                       at once'
	@echo '  make crates                         what cargo needs in host/             5 s, once'
	@echo 'With the kit of Rattle:'
	@echo '  make test                           every proof and every test            an hour, then minutes'
	@echo '  make library                        the proved library, built anew        10 min'
	@echo '  make dist                           the same, into dist/                  10 min'
	@echo '  make compare                        every comparison at its full count    hours'
	@echo '  make bench                          instructions, beside the original     a minute'
	@echo '  make record                         the original'\''s answers, anew          a minute'

preview:
	@host/host.sh preview "$(FILE)"

ox:
	@host/host.sh ox
	@echo 'Run it: target/ox preview samples/club.adi'

install uninstall:
	@DESTDIR='$(DESTDIR)' PREFIX='$(PREFIX)' host/host.sh $@

# the gate: ends in `N passed, 0 failed`
test:
	@gate/test.sh

library dist crates bench record:
	@host/host.sh $@

# for docs/COMPARISONS.md
compare:
	@host/host.sh compare full
