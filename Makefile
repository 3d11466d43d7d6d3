# The program, the gate, and the tests of both. `make` and `make install` need sh, make, gzip and sha256sum alone where dist/ holds the program of
# the sources that are here; all else needs rt (the Rattle toolchain), gcc and python3.
SOURCES := $(shell find crates.txt crates -name out -prune -o -type f ! -name README.md -print)

# The crates with calls that are refused memory in turn, and their tests as they are built.
REFUSING := $(sort $(shell find crates/*/src -type f -exec awk '/_also_without_memory/ { print FILENAME }' {} + | cut -d/ -f2))
TESTS := $(foreach crate,$(REFUSING),crates/$(crate)/out/$(crate)_tests)

# Those of tests/ that are given the program.
SCRIPTS := power_cuts failing_disks recipes killed refused_memory program archives costs queries stores locks readme apply \
    images_open sizes sessions replays block_devices replicated column_types shapes metadata failing_reads \
    failing_writes run_vectors texts dates advice dist

PREFIX ?= /usr/local

# Where this is set, the program says more than the tests expect.
unexport ARROWSTORE_ADVICE

.PHONY: all proved dist install uninstall test gate-cost gate wrong-bodies memory vectors bench bench-goals bench-recode bench-dictionaries bench-shapes bench-texts bench-store bench-archives bench-commits bench-device bench-bitmap $(SCRIPTS:%=test-%)
.DELETE_ON_ERROR:

# Puts the program into bin/ and runs it once, on the stream of examples/.
all: bin/arrowstore
	@examples/run.sh bin/arrowstore

# What the sources are is looked at each time, not when they were written.
bin/arrowstore: FORCE
	@tools/dist.sh put

FORCE:

# Proves and builds the program from nothing, whatever dist/ holds, and compares it with dist/.
proved:
	@tools/dist.sh prove "This is a proof from nothing" --anew
	@tools/dist.sh put
	@tools/dist.sh compare bin/arrowstore
	@examples/run.sh bin/arrowstore

# Makes dist/ anew of what the gate has built.
dist:
	@tools/dist.sh is-built || { echo "A source is newer than crates/program/out/program: run 'make test' or 'make proved' first." >&2; exit 1; }
	@rm -rf bin/dist
	@tools/dist.sh make crates/program/out/program bin/dist
	@rm -rf dist
	@mv bin/dist dist
	@cat dist/manifest

install: bin/arrowstore
	@tools/dist.sh install '$(DESTDIR)$(PREFIX)'

uninstall:
	@tools/dist.sh install --remove '$(DESTDIR)$(PREFIX)'

$(TESTS): crates/%_tests: $(SOURCES)
	@echo "Proving, building and running the tests of $(notdir $*)."
	@cd crates/$(notdir $*) && said=$$(rt test 2>&1) || { echo "$$said"; exit 1; }
	@touch $@

# All that must pass, and then what it cost crate by crate (docs/gate.md).
test gate-cost:
	@tools/look_for.sh "The gate proves and builds these sources" rt gcc python3
	@echo "The gate proves every crate from nothing, twice where it has tests or edits: that takes about an hour on four processors."
	tools/gate_cost.py $(MAKE) --no-print-directory gate

# The gate proves every crate from nothing and builds the program and the tests, which then run with refused memory.
gate:
	tools/wrong_bodies.py --texts
	tools/list_edits.py --check
	python3 -B -m doctest tests/differences.py
	tools/invented_refusals.py
	tests/invented_refusals.py
	RT_JOBS=$${RT_JOBS:-$$(tools/proofs_at_once.py)} rt ci
	@$(MAKE) --no-print-directory memory vectors
	@tools/dist.sh compare crates/program/out/program

# Tries the wrong bodies of all crates, or of those in CRATES, and says why each is refused (docs/testing.md).
wrong-bodies:
	RT_JOBS=$${RT_JOBS:-$$(tools/proofs_at_once.py)} tools/wrong_bodies.py $(CRATES)

# Calls of single crates with each allocation refused.
memory: $(TESTS)
	tests/refused_memory_in_crates.py $(REFUSING)

# The program as it is built, on whole streams, with failing input and output, with each read and each write failed and each allocation refused; then texts,
# drawn refusals and what commands cost. The scripts run side by side, the long ones first; what each prints comes at its end.
vectors:
	@$(MAKE) --no-print-directory --keep-going --output-sync=target -j$$(tools/proofs_at_once.py) $(SCRIPTS:%=test-%)

$(SCRIPTS:%=test-%): test-%: bin/arrowstore
	tests/$*.py $<

bench: bench-goals bench-recode bench-dictionaries bench-shapes bench-texts bench-store bench-archives bench-commits bench-device bench-bitmap

bench-goals: bin/arrowstore
	bench/goals.py $<

bench-recode: bin/arrowstore
	bench/recode.py bin/arrowstore

bench-dictionaries: bin/arrowstore
	bench/dictionaries.py bin/arrowstore
	bench/dictionaries.py bin/arrowstore --times

bench-shapes: bin/arrowstore
	bench/shapes.py bin/arrowstore

bench-texts: bin/arrowstore
	bench/texts.py bin/arrowstore

bench-store: bin/arrowstore crates/bench/out/bench
	bench/store.py $^

bench-archives: bin/arrowstore
	bench/archives.py bin/arrowstore

bench-commits: bin/arrowstore
	bench/commits.py bin/arrowstore

bench-device: crates/bench/out/bench
	bench/device.sh $<

bench-bitmap: crates/bench/out/bench
	$< bitmap 100

crates/bench/out/bench: $(SOURCES)
	cd crates/bench && rt run > /dev/null
	@touch $@
