# make: proves what the story and the picture of a tape rest on, tells a race and draws it. make test: the gate. make bench: times, no
# test. make figures: lines, times of checks, the last benchmark.
# make install: the archive for C, its header, pkg-config file and licence, below PREFIX. make fuzz: tapes against the C entries, no test.
KIT := rattle-kit-13f logic dac8208d650f15bf
PREFIX ?= /usr/local
SECONDS ?= 60
VERSION := $(shell sed -n 's/^.define BRAIDHATCH_VERSION \([0-9]*\)$$/\1/p' include/braidhatch.h)

.PHONY: show test differential bench figures install fuzz kit

show: kit
	@echo "Proving the known examples and what the story and the picture of a tape rest on: this takes its time at first, and seconds later."
	@for it in known tape story picture; do echo "$$it"; tests/built $$it || exit 1; done
	@echo; echo "The known examples:"; tests/program known
	@echo; echo "A race, differential/stored/race.tape, told:"; tests/program story <differential/stored/race.tape
	@tests/program picture <differential/stored/race.tape >target/race.svg
	@echo; echo "The same race drawn: target/race.svg, for any browser (docs/race.svg is that picture)."
	@echo; echo "Next: tests/program story <TAPE tells another, tests/program picture <TAPE draws it; README.md; docs/AUDIT.md for an auditor's hour; make test for the gate."

test: kit
	.ci/run

differential: kit
	differential/run.sh

bench: kit
	differential/bench.sh

figures: kit
	@tests/figures.py

install: kit
	tests/archive braidhatch
	install -d $(DESTDIR)$(PREFIX)/include $(DESTDIR)$(PREFIX)/lib/pkgconfig $(DESTDIR)$(PREFIX)/share/doc/braidhatch
	install -m 644 include/braidhatch.h $(DESTDIR)$(PREFIX)/include
	install -m 644 target/staticlib/libbraidhatch.a $(DESTDIR)$(PREFIX)/lib
	sed 's|@PREFIX@|$(PREFIX)|; s|@VERSION@|$(VERSION)|' host/braidhatch.pc.in >$(DESTDIR)$(PREFIX)/lib/pkgconfig/braidhatch.pc
	install -m 644 NOTICE $(DESTDIR)$(PREFIX)/share/doc/braidhatch

fuzz: kit
	host/fuzz.sh $(SECONDS)

kit:
	@command -v rt >/dev/null || { echo "rt is not on the PATH: this repository wants the Rattle kit '$(KIT)'"; exit 1; }
	@test "$$(rt version)" = "$(KIT)" || echo "note: this repository was proved with '$(KIT)', and rt is '$$(rt version)'"
	@mkdir -p target
