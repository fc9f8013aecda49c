# make            proves what the program needs and builds build/braildesk
# make demo       shows a small book kept in a file and exported, by the sources as they are, without proofs
# make install    installs the program, the command scribe, tables, manual pages and documents below $(DESTDIR)$(PREFIX)
# make uninstall  takes away what was installed there
# make deb        makes the packages for Debian of what make built
# make test       the gate: proves everything from nothing, tries the must-fail edits, and runs its tests
# make attacks    tries the wrong bodies that the gate leaves out, and those that only a test sees
# make bench      measures speed
# make clean      takes away what make built and proved
# make help       shows these lines

PREFIX ?= /usr/local
RT ?= rt
# the Python that runs the tests and the command scribe
PYTHON ?= $(shell tests/python.sh)
export PREFIX DESTDIR PYTHON
PROGRAM := build/braildesk
SOURCES := crates.txt HANDLES $(shell find crates -type f \( -path '*/src/*' -o -path '*/specs/*' -o -path '*/proofs/*' \) -not -path '*/out/*')

# How many crates are proved side by side, and how many checks of the gate run so: one for each processor, if there are 5 GB of memory for
# each. Left alone, rt ci allows up to 13 GB for one, of which few take 4 and none takes 7, and leaves processors idle.
JOBS ?= $(shell awk -v n="$$(nproc)" '/^MemAvailable/ { m = int($$2 / 5000000); print m < 1 ? 1 : m < n ? m : n }' /proc/meminfo)

.PHONY: all demo install uninstall deb test trials runs attacks bench clean help

all: $(PROGRAM)

# what needs the toolchain begins with this
need_rt = $(if $(shell command -v '$(RT)' 2> /dev/null),,$(error the command '$(RT)' of the Rattle toolchain is missing; RT=PATH says where it is))

$(PROGRAM): $(SOURCES)
	$(need_rt)
	@echo 'Proving what the program needs, and building it. From nothing this takes about twenty minutes on four idle processors, and longer beside other work; a crate that is unchanged takes seconds.' >&2
	@RT='$(RT)' JOBS=$(JOBS) exec scripts/prove.sh
	@mkdir -p $(@D)
	@cp crates/braildesk/out/braildesk $@
	@echo 'Built $@.'

demo:
	$(need_rt)
	@echo 'This runs the program on a file, as the sources are, with checks as it runs. It proves nothing, and takes two minutes on an idle machine.'
	@echo "'make' proves what the program needs, and builds $(PROGRAM)."
	@RT='$(RT)' sample/demo.sh

install: $(PROGRAM)
	scripts/install.sh install

uninstall:
	scripts/install.sh uninstall

deb: $(PROGRAM)
	scripts/deb.sh

test:
	RT='$(RT)' tests/needs.sh
	rm -rf build/rooms
	RT_JOBS=$(JOBS) $(RT) ci
	@mkdir -p $(dir $(PROGRAM))
	@cp crates/braildesk/out/braildesk $(PROGRAM)
	$(MAKE) --no-print-directory -j $(JOBS) trials runs

# what the gate runs once all is proved; the tests stop files at each 23rd of their calls, and at each where an older file is
# completed, and tests/failures/stops.sh at each
trials:
	RT='$(RT)' EVERY=23 tests/trials/trials.sh
# scripts tests/FOLDER/NAME.sh over the built program, which run side by side, those that take longest first
SCRIPTS := desk bring_real instructions kill memory stops window package limits ueb prove tutorial client rows paths sentences
runs: $(SCRIPTS:%=run-%)
run-tutorial run-client: run-%:
	tests/program/$*.sh $(PROGRAM)
run-%:
	tests/*/$*.sh

attacks:
	$(need_rt)
	RT='$(RT)' JOBS=$(JOBS) tests/trials/attacks.sh

bench: $(PROGRAM)
	for name in translate tables reading pages rows session rebuild keep desk window; do bench/$$name/$$name.sh || exit 1; done

clean:
	rm -rf build crates/*/out

help:
	@sed -n 's/^# make/make/p' Makefile
