# make run: proves, builds and runs the demonstration. make test: the whole gate. README.md has the others.
.PHONY: run test contracts table refusal replay mend qlog diff diff-traces diff-mends patterns changes mutants drift estimate picture pictures lists rust year hostile bench replay-bench mend-bench instructions install clean kit archive

run: kit
	@cd crates/show && rt run

# Its last line is the verdict of `rt ci`: every crate proved, every must-fail edit refused, every program run. It is
# printed once all else has passed too (tests/gate.sh).
test: kit
	@sh tests/gate.sh

kit:
	@command -v rt >/dev/null 2>&1 || { \
		echo "The Rattle kit is needed, and its command rt is not on the PATH." >&2; \
		exit 1; \
	}

# What is named by these reaches the commands as it was written, with quotes and dollars too.
NAMES = TRACE TRACES OUT QLOG REPLY CALL
$(foreach name,$(NAMES),$(eval override $(name) := $$(value $(name))))
export $(NAMES)

# ---- what is written, against the source

# The list of public functions in docs/CONTRACTS.md, the paths that the pages name, the table of calls and words, the
# widths of the pages of definitions, the modules of the Rust packages, and their declarations beside the header's.
contracts:
	@sh tests/contracts.sh

# What is written from the table of calls and words, docs/calls.txt: tables of docs/LAYOUT.md, names of the header and of
# the Rust packages.
table:
	@python3 tests/table.py --write

# A reply in words: make refusal REPLY=66562 CALL=start. CALL is a call's number or name, or an exported function's name.
refusal:
	@python3 tests/refusal.py "$$REPLY" "$$CALL"

# ---- traces from the field (docs/TRACE.md)

# Replays one trace, TRACE=file, or every trace of a folder, TRACES=folder; then the rows go to the folder OUT, if one is
# named. The program is proved and built where a source is newer, unless PORT is its command; what that
# prints goes to standard error.
replay:
	@[ -n "$$TRACE$$TRACES" ] || { echo "Name a trace, TRACE=file, or a folder of them, TRACES=folder." >&2; exit 1; }
	@[ -z "$$TRACE" ] || [ -z "$$TRACES$$OUT" ] || { echo "Name TRACE alone, or TRACES with or without OUT." >&2; exit 1; }
	@[ -e "$$TRACE$$TRACES" ] || { echo "There is no $$TRACE$$TRACES." >&2; exit 1; }
	@[ -n "$$PORT" ] || $(MAKE) -s $(REPLAY) >&2
	@if [ -n "$$TRACE" ]; then sh tests/replay.sh "$$TRACE"; else python3 tests/replay.py "$$TRACES" $${OUT:+"$$OUT"}; fi

# Mends one trace, TRACE=file: without the lines that a replay refuses with 6 it goes to the same name with .mended.csv,
# and the list of those lines to .list.csv, beside it or in the folder OUT. The program is built as that of the replay.
mend:
	@[ -n "$$TRACE" ] || { echo "Name a trace, TRACE=file." >&2; exit 1; }
	@[ -e "$$TRACE" ] || { echo "There is no $$TRACE." >&2; exit 1; }
	@[ -n "$$PORT" ] || $(MAKE) -s $(MEND) >&2
	@exec sh tests/mend.sh "$$TRACE" $${OUT:+"$$OUT"}

# A trace drawn, TRACE=file, beside the exact fractions: to the same name with .svg.
picture:
	@[ -n "$$TRACE" ] || { echo "Name a trace, TRACE=file." >&2; exit 1; }
	@[ -e "$$TRACE" ] || { echo "There is no $$TRACE." >&2; exit 1; }
	@[ -n "$$PORT" ] || $(MAKE) -s $(REPLAY) >&2
	@python3 tests/trace_picture.py "$$TRACE"

# A qlog as a trace, to standard output (docs/QLOG.md): QLOG=file.
qlog:
	@[ -n "$$QLOG" ] || { echo "Name a qlog, QLOG=file." >&2; exit 1; }
	@python3 tests/qlog.py "$$QLOG"

# Each program is made of the crates that it knows (crates.txt). It is left where `rt` builds it.
REPLAY = crates/replay/out/replay
MEND = crates/mend/out/mend
SERVE = crates/serve/out/serve
known = $(1) $(shell sed -n 's/^$(1): //p' crates.txt)
.SECONDEXPANSION:
$(REPLAY) $(MEND) $(SERVE): $$(foreach crate,$$(call known,$$(notdir $$@)),$$(wildcard crates/$$(crate)/src/*.rt))
	@$(MAKE) -s kit
	sh tests/build.sh $(notdir $@)
	@touch $@

# ---- the port beside the original (oracle/README.md)

# A relative name is seen from here, whatever a command works in.
ifdef ORIGINAL
override ORIGINAL := $(abspath $(ORIGINAL))
export ORIGINAL
endif

SEED = 7

# Call by call, from SEED: CALLS calls of the model, and a tenth as many on filters, on numbers, on the exported filter
# run and slope and on the round-trip estimator, and, by the archive, on x86-64, with lists of acked numbers and of the
# estimator in long runs.
CALLS = 5000000
diff: kit
	@[ "$$(uname -m)" != x86_64 ] || $(MAKE) archive
	@sh tests/diff.sh $(SEED) $(CALLS)

# The replay, trace by trace: LINES lines of traces from SEED, sound and damaged.
LINES = 1000000
diff-traces: kit
	@sh tests/trace.sh $(SEED) $(LINES)

# The mending, trace by trace: COUNT traces from SEED, sound and damaged.
COUNT = 100000
diff-mends: kit
	@sh tests/mend_diff.sh $(SEED) $(COUNT)

# The same for every f32: to_u64, and scale with each of NUMBERS.
NUMBERS = 1300 16777216 16777217 1099511627776 18446744073709551615
patterns: kit
	@sh tests/diff.sh patterns $(NUMBERS)

# Small changes to the original, and to the reading of what it does not say, each of which the comparison with the port
# must notice.
changes: kit
	@$(MAKE) -s $(SERVE)
	PORT="$$(sh tests/program.sh serve)" python3 tests/changes.py

# Makes the kept samples of the original's answers again, and keeps them.
lists:
	@sh tests/lists.sh keep

# ---- what must not hold, and what must hold for long (docs/EVIDENCE.md)

# Small changes to the source and to the definitions, each of which the prover must refuse, or a run show: those in
# tests/wrong, then MUTANTS at random places of each. Hours.
MUTANTS = 300
mutants: kit
	rt all check
	python3 tests/mutants.py --named
	python3 tests/mutants.py $(SEED) $(MUTANTS)
	python3 tests/mutants.py --specs $(SEED) $(MUTANTS)

# Random runs of the port beside exact fractions (docs/DRIFT.md).
RUNS = 4000
drift: kit
	@$(MAKE) -s $(SERVE)
	python3 tests/drift.py $(SEED) $(RUNS)

# Random runs of the port's windowed filter beside what is promised of its estimates (docs/ESTIMATE.md).
UPDATES = 1000000
estimate: kit
	@$(MAKE) -s $(SERVE)
	python3 tests/estimate.py $(SEED) $(UPDATES)

# The pages' pictures.
pictures: kit
	@$(MAKE) -s $(SERVE)
	python3 tests/drift.py --picture docs/drift.svg
	python3 tests/rtt_drift.py --picture docs/round_trip.svg
	python3 tests/estimate.py --picture docs/estimate.svg
	@$(MAKE) -s $(REPLAY)
	python3 tests/trace_picture.py traces/lossy_day.csv docs/trace.svg

# ---- the archive of the exported calls, and what links it: on x86-64

# A year of one connection from SEED, in EVENTS events: inflight_lo and the round trip's averages beside their exact
# values (rust/guovssalu/examples/year). It shows each week, and ends with a report.
EVENTS = 300000000
year: archive
	$(CARGO) run --release --quiet --manifest-path rust/guovssalu/Cargo.toml --example year -- $(SEED) $(EVENTS)

# Bad input for every exported call, from SEED: CALLS calls, each reply known beforehand (hostile/README.md).
hostile: archive
	$(CARGO) run --release --quiet --manifest-path hostile/Cargo.toml -- $(SEED) $(CALLS)

# The port beside the original, in one process (docs/BENCHMARKS.md).
bench: archive
	$(CARGO) run --release --quiet --manifest-path bench/Cargo.toml

# The replay beside a program that reads the same and asks the original, and the memory that it takes.
replay-bench: kit
	@$(MAKE) -s $(REPLAY)
	@sh tests/trace.sh 1 0
	python3 tests/replay_bench.py

# The mending beside `cat`, and beside a Rust program that reads and writes the same, and the memory that it takes.
mend-bench: kit
	@$(MAKE) -s $(MEND)
	@sh tests/mend_diff.sh 1 0
	python3 tests/mend_bench.py

# The same cases by the instructions that they take, counted under valgrind.
instructions: archive
	$(CARGO) build --release --quiet --manifest-path bench/Cargo.toml
	python3 tests/instructions.py target/cargo/release/bench

# All that links the archive, tested: symbols, Rust packages, examples, some bad input, the install. Elsewhere the
# packages are only checked.
rust: kit
	@[ "$$(uname -m)" != x86_64 ] || $(MAKE) archive
	sh tests/links.sh

# Header, archive and pkg-config file to PREFIX, below DESTDIR if that is given. An archive that is there is taken.
PREFIX = /usr/local
install:
	@case '$(PREFIX)' in /*) ;; *) echo "PREFIX has to be a full path, as /usr/local."; exit 1 ;; esac
	@[ -f $(ARCHIVE) ] || $(MAKE) archive
	install -d '$(DESTDIR)$(PREFIX)/include' '$(DESTDIR)$(PREFIX)/lib/pkgconfig'
	install -m 644 include/guovssalu.h '$(DESTDIR)$(PREFIX)/include/guovssalu.h'
	install -m 644 $(ARCHIVE) '$(DESTDIR)$(PREFIX)/lib/libguovssalu.a'
	sed -e 's|@PREFIX@|$(PREFIX)|' -e "s|@VERSION@|$$(sed -n 1p VERSION)|" \
		-e "s|@LAYOUT@|$$(sed -n 's/^layout //p' VERSION)|" \
		include/guovssalu.pc.in >'$(DESTDIR)$(PREFIX)/lib/pkgconfig/guovssalu.pc'

CARGO = CARGO_TARGET_DIR=$(CURDIR)/target/cargo cargo
ARCHIVE = target/staticlib/libguovssalu.a
archive: kit
	@sh tests/archive.sh

clean:
	rm -rf crates/*/out target oracle/target rust/target bench/target hostile/target
