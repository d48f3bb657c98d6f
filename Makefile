# make demo      plays the example of a tenant that loses lines when its mask is rewritten: by a run of the sources within two minutes, and by the simulator once it is proved and built; on one and two processors it proves the simulator alone
# make simulator proves and builds the simulator alone
# make build     proves and builds all programs
# make test      the gate: proves every crate, tries the wrong bodies that tell most, runs the tests and the programs, and compares their reports, pages and exit statuses
# make edits     tries the wrong bodies that the gate leaves out; it can be interrupted and run again, and tools/gate/edits CRATE tries those of one crate
# make clients   runs real clients on the mounted tree: a shell, pqos and goresctrl (needs root, FUSE and Debian packages, and is no part of the gate)
# make browser   tries the page in a browser without a window (needs Chromium, and is no part of the gate)
# make cluster   sweeps ways on a Dask cluster of two workers on this machine (needs python3-distributed, and is no part of the gate)
# make kernel    compares with a running Linux in QEMU, which it first builds from Debian packages (minutes and 2 GB, and is no part of the gate)
# make install   puts the programs, manual pages, documents, examples and tools below PREFIX (default: /usr/local)
# make deb       builds a Debian package of the same in out/
# make help      prints these lines

PROGRAM = crates/resctrl_sim/out/resctrl_sim
PLANNER = crates/resctrl_plan/out/resctrl_plan
CHECKER = crates/resctrl_check/out/resctrl_check
REPLAYER = crates/resctrl_replay/out/resctrl_replay
CDP = crates/resctrl_cdp/out/resctrl_cdp
LEVELS = crates/resctrl_l2/out/resctrl_l2
PROGRAMS = $(PROGRAM) $(PLANNER) $(CHECKER) $(REPLAYER) $(CDP) $(LEVELS)
# They have the time at which make began, once the simulator, or every program, was proved and built from these sources: what is edited
# meanwhile is newer.
SIMULATOR_BUILT = crates/resctrl_sim/out/built
ALL_BUILT = crates/resctrl_plan/out/all_built
BEGAN := $(shell date +%s.%N)
# What the proofs read, and what the gate runs the programs on.
SOURCES = crates.txt HANDLES $(shell find crates \( -name out -o -name edits -o -name must-fail \) -prune -o -type f -print)
PREFIX = /usr/local

demo:
	@sh tools/gate/demo $(PROGRAM)

simulator: $(SIMULATOR_BUILT)

$(SIMULATOR_BUILT): $(SOURCES)
	@python3 tools/gate/progress -q -p $(notdir $(PROGRAM)) sh tools/gate/prove $(notdir $(PROGRAM))
	@touch -d @$(BEGAN) $(SIMULATOR_BUILT)

build: $(ALL_BUILT)

$(ALL_BUILT): $(SOURCES)
	@python3 tools/gate/progress -q $(patsubst %,-p %,$(notdir $(PROGRAMS))) sh tools/gate/prove $(notdir $(PROGRAMS))
	@touch -d @$(BEGAN) $(SIMULATOR_BUILT) $(ALL_BUILT)

test:
	@echo "The gate proves every crate, tries wrong bodies that the prover has to refuse, and runs the tests and the programs."
	python3 tools/gate/progress rt ci
	@# The gate leaves the programs that it proved, built and ran.
	@for program in $(PROGRAMS); do [ -x $$program ] || exit 0; done; touch -d @$(BEGAN) $(SIMULATOR_BUILT) $(ALL_BUILT)
	@$(MAKE) -s build
	python3 tools/gate/comparisons

edits:
	python3 tools/gate/edits

clients: build
	@# What is not there is said, and is no fault.
	@sh tools/gate/clients $(PROGRAM) || [ $$? -eq 77 ]

browser: build
	python3 tools/gate/try_page $(PROGRAM)

cluster: build
	sh tools/gate/compare_cluster $(PROGRAM)

kernel: build
	python3 tools/gate/compare_kernel $(PROGRAM)

install: build
	sh tools/packages/install $(DESTDIR)$(PREFIX) $(PROGRAMS)

deb: build
	sh tools/packages/deb out $(PROGRAMS)

help:
	@sed -n 's/^# make/make/p' Makefile

.PHONY: demo simulator build test edits clients browser cluster kernel install deb help
