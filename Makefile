# make                 build the static library, proved, and the two C programs over it; run them and see that they
#                      print what they should; the second makes a picture, build/plate.pgm
# make example-check   the same with each of gcc and clang, as C and as C++, and under valgrind, where they are installed;
#                      and see that the header declares what the library exports, that the library has no other global
#                      symbol, that the header compiles by each standard, and that docs/plate.png is the picture
# make sanitize        the programs, the header's test and the fuzzer, compiled with the address and undefined behaviour
#                      sanitizers of gcc and clang, where they are installed
# make fuzz            call the library with hostile numbers and lengths, and check all that it gives: COUNT=N random
#                      cases from SEED=N, a hundredth as many under valgrind, and SECONDS=N of libFuzzer, where they are
#                      installed; CASE=FILE for one case again
# make fuzz-check      see that the fuzzer notices what is made wrong
# make fuzz-coverage   print how many of the library's instructions the fuzzer's cases run, by valgrind and objdump
# make picture         make docs/plate.png anew; needs python3
# make demonstration   build the Rattle program that shows the three lower layers one by one, proved, and run it
# make plot            draw docs/drift.svg anew, from what the program run_drift prints
# make forms-check     see that the lines which docs/DECISIONS.md gives for the scope's forms have them
# make split-check     see that the text of the vector split, and of all that it calls, holds neither a division nor a remainder;
#                      and that this is noticed where it does. That the code holds none is proved in the gate
# make test            the gate: prove everything from nothing, try the must-fail edits, run the programs
# make differential    build the Rust original, and compare the port with it: see that the lists in the repository are its
#                      answers (make lists-check); draw other lists, and replay them by the Rattle programs, every public
#                      call by the million (make replays); and compare the C calls, by the million (make compare). SEED=N,
#                      ROUNDS=N and COUNT=N draw other cases or more
# make lists           make those lists anew
# make mutate          try small mutations of the code against the lists and the fuzzer, without proof, and of the definitions
#                      against cases that the prover computes; each that nothing notices has to be in mutate/survivors.txt,
#                      with a reason. EVERY=N for every Nth alone, ARGS='pmv src' for some crates, or for the code or the
#                      definitions (specs) alone, JOBS=N for so many at a time; needs python3 and a compiler with the
#                      address sanitizer
# make bench           measure the port beside the Rust original, plain C, and the half-sample functions of libavcodec and
#                      libmpeg2 where Debian's libavcodec-dev and libmpeg2-4-dev are installed, and print tables, with the
#                      marks; ARGS='--quick macroblocks' for fewer repetitions, or for some of the tables alone
# make bench-counts    count the instructions of fixed calls under valgrind, and print how they have changed from those that
#                      are kept; ACCEPT=1 keeps the new ones
# make clean           remove all that was made, what is proved included
# differential, lists and bench need cargo and the Rust original. FOZDRIK_RUST is the folder that holds its LICENSE and
# src/, by default ../shared/docs/src; a relative path starts here.

RT ?= rt
CARGO ?= cargo

LIBRARY = crates/fozdrik/out/libfozdrik.a
# examples/c/NAME.c has to print examples/c/expected_NAME.txt; each is given the file for a picture, if it makes one
EXAMPLES = example moving_picture
PICTURE = build/plate.pgm
C_FLAGS = -O2 -Wall -Wextra -Wpedantic -Werror -Iinclude
STRICT_FLAGS = $(C_FLAGS) -Wconversion -Wshadow
STANDARDS = $(foreach standard,c99 c11 c17,'gcc -std=$(standard)' 'clang -std=$(standard)') \
	$(foreach standard,c++11 c++17,'g++ -std=$(standard) -x c++' 'clang++ -std=$(standard) -x c++')

# what a library is made of, by its crates: rt is asked only where a source has changed
sources = crates.txt $(shell find $(addprefix crates/,$(1)) -name '*.rt' -o -name '*.antt')

# two commands of rt in one folder would be in each other's way
.NOTPARALLEL:
# what a command that failed has left is not taken for made
.DELETE_ON_ERROR:

.PHONY: all declarations symbols header-test example-check sanitize fuzz fuzz-check fuzz-coverage picture demonstration \
	plot forms-check split-check test differential lists-check replays compare lists mutate bench bench-counts clean

all: $(LIBRARY)
	@mkdir -p build
	@for name in $(EXAMPLES); do \
		$(CC) -std=c99 $(C_FLAGS) examples/c/$$name.c $(LIBRARY) -o build/$$name || exit 1; \
		build/$$name $(PICTURE) >build/$$name.txt || { cat build/$$name.txt; exit 1; }; \
		cat build/$$name.txt; \
		diff examples/c/expected_$$name.txt build/$$name.txt || exit 1; \
		echo "as examples/c/expected_$$name.txt has it"; \
	done
	@echo "the picture is $(PICTURE)"

$(LIBRARY): $(call sources,laws combine_predictions forming_predictions pmv inter_reconstruction entry_points fozdrik)
	@mkdir -p build
	@echo "proving and building $(LIBRARY), which takes some minutes"
	@(cd crates/fozdrik && $(RT) lib --cpu x86-64) >build/library.log 2>&1 || { tail -n 40 build/library.log; echo "all of it is in build/library.log"; exit 1; }
	@touch $@

declarations:
	@mkdir -p build
	@awk -f examples/c/declarations.awk crates/fozdrik/src/*.rt | sort >build/exported.txt
	@awk -f examples/c/declarations.awk include/fozdrik.h | sort >build/declared.txt
	@diff build/exported.txt build/declared.txt && echo "the header declares what the library exports"

symbols: declarations $(LIBRARY)
	@cut -d ' ' -f 1 build/declared.txt | sort -u >build/calls.txt
	@nm -g --defined-only $(LIBRARY) | awk 'NF == 3 { print $$3 }' | sort | diff build/calls.txt - && \
		echo "the library's global symbols are the calls that the header declares, and no others"
	@nm -u $(LIBRARY) | awk '$$1 == "U" && $$2 != "memcpy" && $$2 != "memset" { print "the library needs " $$2; bad = 1 } END { exit bad }'
	@echo "the library needs nothing but memcpy and memset"
	@objdump -h $(LIBRARY) | awk '/ALLOC/ && !/READONLY/ && size !~ /^0*$$/ { print "the library has data that can be written: " name; bad = 1 } \
		{ name = $$2; size = $$3 } END { exit bad }'
	@echo "the library has no data that can be written"

# every name of the header has to occur in its test, but for its guard; its version is the first of CHANGELOG.md
header-test: $(LIBRARY)
	@mkdir -p build
	@version=$$(awk '/^#define FOZDRIK_VERSION_(MAJOR|MINOR|PATCH) / { printf "%s%s", point, $$3; point = "." }' include/fozdrik.h); \
		grep -m 1 '^## Fozdrik' CHANGELOG.md | grep -qwF "Fozdrik $$version" || \
		{ echo "the header's version is $$version, which is not the first of CHANGELOG.md"; exit 1; }
	@sed 's,//.*,,' include/fozdrik.h | grep -oE '(FOZDRIK|fozdrik)_[A-Za-z0-9_]+' | sort -u | grep -vx FOZDRIK_H | \
		while read -r name; do grep -qw "$$name" include/tests/header.c || { echo "include/tests/header.c lacks $$name"; exit 1; }; done
	@for compiler in $(STANDARDS); do \
		command -v $${compiler%% *} >/dev/null || { echo "$${compiler%% *} is not installed"; continue; }; \
		for unit in header second; do \
			$$compiler $(STRICT_FLAGS) -c include/tests/$$unit.c -o build/$$unit.o || exit 1; \
		done; \
		$${compiler%% *} build/header.o build/second.o $(LIBRARY) -o build/header && build/header || exit 1; \
		echo "$$compiler: no warning about the header, and all holds"; \
	done

example-check: symbols header-test
	@for compiler in 'gcc -std=c99' 'clang -std=c99' 'g++ -std=c++11 -x c++' 'clang++ -std=c++11 -x c++'; do \
		command -v $${compiler%% *} >/dev/null || { echo "$${compiler%% *} is not installed"; continue; }; \
		for name in $(EXAMPLES); do \
			$$compiler $(C_FLAGS) examples/c/$$name.c -x none $(LIBRARY) -o build/$$name || exit 1; \
			build/$$name $(PICTURE) >build/$$name.txt || { cat build/$$name.txt; exit 1; }; \
			diff examples/c/expected_$$name.txt build/$$name.txt || exit 1; \
			echo "$$compiler: no warning, and as examples/c/expected_$$name.txt has it"; \
		done || exit 1; \
	done
	@command -v valgrind >/dev/null || { echo "valgrind is not installed"; exit 0; }; \
		for name in $(EXAMPLES); do \
			$(CC) -std=c99 -g $(C_FLAGS) examples/c/$$name.c $(LIBRARY) -o build/$$name || exit 1; \
			$(MEMCHECK) build/$$name $(PICTURE) >build/$$name.txt || exit 1; \
			diff examples/c/expected_$$name.txt build/$$name.txt || exit 1; \
			echo "valgrind: no error in $$name"; \
		done
	@command -v python3 >/dev/null || { echo "python3 is not installed"; exit 0; }; \
		test -f $(PICTURE) || { echo "no compiler has made $(PICTURE)"; exit 0; }; \
		python3 examples/c/png.py --check $(PICTURE) docs/plate.png && echo "docs/plate.png shows $(PICTURE)"

# ---- the C boundary with hostile arguments

FUZZ = build/fuzz
FUZZED = $(addprefix fuzz/,case.c expected.c fuzz.c lent.c wrong.c)
FUZZ_FILES = $(wildcard fuzz/*.[ch]) include/fozdrik.h $(LIBRARY)
FUZZ_SEED = $(or $(SEED),1)
FUZZ_COUNT = $(or $(COUNT),1000000)
FUZZ_SECONDS = $(or $(SECONDS),30)
SANITIZE_FLAGS = -g -fsanitize=address,undefined -fno-sanitize-recover=all
# so that a report ends the program with a signal, at which the fuzzer prints its case
SANITIZER = ASAN_OPTIONS=abort_on_error=1 UBSAN_OPTIONS=abort_on_error=1:print_stacktrace=1
MEMCHECK = valgrind -q --error-exitcode=1 --leak-check=full

$(FUZZ)/driver: $(FUZZ_FILES)
	@mkdir -p $(FUZZ)
	@$(CC) -std=c99 -g $(STRICT_FLAGS) $(FUZZED) fuzz/driver.c $(LIBRARY) -o $@

# a program that only libFuzzer makes whole
$(FUZZ)/libfuzzer_probe.c:
	@mkdir -p $(FUZZ)
	@echo 'int LLVMFuzzerTestOneInput(void); int LLVMFuzzerTestOneInput(void) { return 0; }' >$@

ifdef CASE
fuzz: $(FUZZ)/driver
	@$(FUZZ)/driver --case $(CASE)
	@command -v valgrind >/dev/null || { echo "valgrind is not installed"; exit 0; }; \
		$(MEMCHECK) $(FUZZ)/driver --case $(CASE) >$(FUZZ)/valgrind.txt 2>&1 || { cat $(FUZZ)/valgrind.txt; exit 1; }; \
		echo "no finding under valgrind"
else
fuzz: $(FUZZ)/driver $(FUZZ)/libfuzzer_probe.c
	@$(FUZZ)/driver --seed $(FUZZ_SEED) --count $(FUZZ_COUNT) --keep $(FUZZ)/case.txt
	@command -v valgrind >/dev/null || { echo "valgrind is not installed"; exit 0; }; \
		echo "under valgrind:"; \
		$(MEMCHECK) $(FUZZ)/driver --seed $(FUZZ_SEED) --count $$(($(FUZZ_COUNT) / 100)) --keep $(FUZZ)/case.txt >$(FUZZ)/valgrind.txt; \
		status=$$?; tail -n 1 $(FUZZ)/valgrind.txt; exit $$status
	@mkdir -p $(FUZZ)/corpus
	@clang $(SANITIZE_FLAGS) -fsanitize=fuzzer $(FUZZ)/libfuzzer_probe.c -o $(FUZZ)/probe 2>/dev/null || { echo "clang's libFuzzer is not installed"; exit 0; }; \
		clang -std=c99 $(STRICT_FLAGS) $(SANITIZE_FLAGS) -fsanitize=fuzzer $(FUZZED) $(LIBRARY) -o $(FUZZ)/libfuzzer || exit 1; \
		echo "libFuzzer, $(FUZZ_SECONDS) seconds:"; \
		rm -f $(FUZZ)/crash-* $(FUZZ)/timeout-* $(FUZZ)/oom-*; \
		$(FUZZ)/libfuzzer -seed=$(FUZZ_SEED) -max_total_time=$(FUZZ_SECONDS) -max_len=256 -timeout=20 -print_final_stats=1 \
			-artifact_prefix=$(FUZZ)/ $(FUZZ)/corpus >$(FUZZ)/libfuzzer.txt 2>&1 && { \
			awk '/ cov: / { line = $$0 } /^Done / { print } END { sub(/ *corp:.*/, "", line); print line }' $(FUZZ)/libfuzzer.txt; \
			exit 0; }; \
		grep -A 12 -E '^finding|ERROR|runtime error' $(FUZZ)/libfuzzer.txt; \
		for case in $(FUZZ)/crash-* $(FUZZ)/timeout-* $(FUZZ)/oom-*; do \
			test -f $$case || continue; \
			echo "the case, which is kept in $$case:"; od -An -v -tx1 $$case; \
		done; exit 1
endif

# First, that a case is the same by each compiler, or one that libFuzzer kept would not be met again. Then each kind of
# wrong: DOES_NOT_RETURN waits for PATIENCE, and the last is for valgrind. One of them is shown to libFuzzer too, and what
# that keeps to the driver.
fuzz-check: $(FUZZ_FILES) $(FUZZ)/libfuzzer_probe.c
	@mkdir -p $(FUZZ)
	@rm -f $(FUZZ)/same.txt
	@for compiler in gcc clang; do \
		command -v $$compiler >/dev/null || { echo "$$compiler is not installed"; continue; }; \
		$$compiler -std=c99 $(STRICT_FLAGS) $(FUZZED) fuzz/driver.c $(LIBRARY) -o $(FUZZ)/same || exit 1; \
		$(FUZZ)/same --count 100000 >$(FUZZ)/same_$$compiler.txt || exit 1; \
		test -f $(FUZZ)/same.txt || cp $(FUZZ)/same_$$compiler.txt $(FUZZ)/same.txt; \
		diff $(FUZZ)/same.txt $(FUZZ)/same_$$compiler.txt || { echo "$$compiler draws other cases"; exit 1; }; \
		echo "$$compiler: $$(tail -n 1 $(FUZZ)/same.txt)"; \
	done
	@awk '/^    [A-Z][A-Z0-9_]*( = 1)?,?$$/ { sub(/,/, ""); print ++n, $$1 }' fuzz/wrong.h >$(FUZZ)/kinds.txt
	@last=$$(wc -l <$(FUZZ)/kinds.txt); \
	while read -r number name; do \
		$(CC) -std=c99 $(STRICT_FLAGS:-O2=-O1) -DPATIENCE=1 -DWRONG=$$number $(FUZZED) fuzz/driver.c $(LIBRARY) -o $(FUZZ)/wrong || exit 1; \
		tool=; cases=300000; \
		if test $$number = $$last; then \
			command -v valgrind >/dev/null || { echo "$$name: valgrind is not installed"; continue; }; \
			$(FUZZ)/wrong --count 10000 >/dev/null || { echo "$$name: noticed without valgrind"; exit 1; }; \
			tool='$(MEMCHECK)'; cases=10000; \
		fi; \
		rm -f $(FUZZ)/wrong.case; \
		$$tool $(FUZZ)/wrong --count $$cases --keep $(FUZZ)/wrong.case >/dev/null 2>$(FUZZ)/wrong.txt && { echo "$$name: not noticed"; exit 1; }; \
		test -f $(FUZZ)/wrong.case || { echo "$$name: ended without a case"; cat $(FUZZ)/wrong.txt; exit 1; }; \
		$$tool $(FUZZ)/wrong --case $(FUZZ)/wrong.case >/dev/null 2>&1 && { echo "$$name: not noticed in the case again"; exit 1; }; \
		echo "$$name: $$(grep '^finding' $(FUZZ)/wrong.txt)"; \
	done <$(FUZZ)/kinds.txt
	@clang $(SANITIZE_FLAGS) -fsanitize=fuzzer $(FUZZ)/libfuzzer_probe.c -o $(FUZZ)/probe 2>/dev/null || { echo "clang's libFuzzer is not installed"; exit 0; }; \
		number=$$(awk '$$2 == "FOUR_BY_PAIRS" { print $$1 }' $(FUZZ)/kinds.txt); \
		clang -std=c99 $(STRICT_FLAGS) $(SANITIZE_FLAGS) -fsanitize=fuzzer -DWRONG=$$number $(FUZZED) $(LIBRARY) -o $(FUZZ)/wrong_libfuzzer || exit 1; \
		$(CC) -std=c99 $(STRICT_FLAGS) -DWRONG=$$number $(FUZZED) fuzz/driver.c $(LIBRARY) -o $(FUZZ)/wrong || exit 1; \
		rm -f $(FUZZ)/wrong.case; \
		$(FUZZ)/wrong_libfuzzer -seed=1 -max_total_time=120 -max_len=256 -exact_artifact_path=$(FUZZ)/wrong.case >$(FUZZ)/wrong.txt 2>&1; \
		test -f $(FUZZ)/wrong.case || { echo "libFuzzer does not notice FOUR_BY_PAIRS"; exit 1; }; \
		$(FUZZ)/wrong --case $(FUZZ)/wrong.case >/dev/null 2>&1 && { echo "the driver does not notice it in libFuzzer's case"; exit 1; }; \
		echo "libFuzzer, and the driver in the case that it kept: $$(grep '^finding' $(FUZZ)/wrong.txt)"
	@echo "all that was made wrong was noticed, and again when the case was given again"

fuzz-coverage: $(FUZZ_FILES)
	@command -v valgrind >/dev/null || { echo "valgrind is not installed, and nothing is counted"; exit 1; }
	@mkdir -p $(FUZZ)
	@$(CC) -std=c99 -no-pie $(STRICT_FLAGS) $(FUZZED) fuzz/driver.c $(LIBRARY) -o $(FUZZ)/counted
	@valgrind -q --tool=callgrind --dump-instr=yes --compress-pos=no --callgrind-out-file=$(FUZZ)/profile \
		$(FUZZ)/counted --seed $(FUZZ_SEED) --count $(or $(COUNT),20000) >/dev/null
	@nm $(LIBRARY) | awk 'NF == 3 && tolower($$2) == "t" { print $$3 }' >$(FUZZ)/functions.txt
	@objdump -d --no-show-raw-insn $(FUZZ)/counted >$(FUZZ)/instructions.txt
	@awk -f fuzz/coverage.awk $(FUZZ)/functions.txt $(FUZZ)/profile $(FUZZ)/instructions.txt

sanitize: $(FUZZ_FILES)
	@mkdir -p $(FUZZ)
	@echo 'int main(void) { return 0; }' >$(FUZZ)/probe.c
	@for compiler in gcc clang; do \
		$$compiler $(SANITIZE_FLAGS) $(FUZZ)/probe.c -o $(FUZZ)/probe 2>/dev/null || { echo "$$compiler with its sanitizers is not installed"; continue; }; \
		for name in $(EXAMPLES); do \
			$$compiler -std=c99 $(C_FLAGS) $(SANITIZE_FLAGS) examples/c/$$name.c $(LIBRARY) -o build/$$name || exit 1; \
			$(SANITIZER) build/$$name $(PICTURE) >build/$$name.txt || exit 1; \
			diff examples/c/expected_$$name.txt build/$$name.txt || exit 1; \
			echo "$$compiler with sanitizers: no error in $$name"; \
		done || exit 1; \
		$$compiler -std=c99 $(STRICT_FLAGS) $(SANITIZE_FLAGS) include/tests/*.c $(LIBRARY) -o build/header || exit 1; \
		$(SANITIZER) build/header || exit 1; \
		echo "$$compiler with sanitizers: no error in the header's test"; \
		$$compiler -std=c99 $(STRICT_FLAGS) $(SANITIZE_FLAGS) $(FUZZED) fuzz/driver.c $(LIBRARY) -o $(FUZZ)/sanitized || exit 1; \
		$(SANITIZER) $(FUZZ)/sanitized --seed $(FUZZ_SEED) --count $$(($(FUZZ_COUNT) / 5)) --keep $(FUZZ)/case.txt >$(FUZZ)/sanitized.txt; \
		status=$$?; tail -n 1 $(FUZZ)/sanitized.txt; test $$status = 0 || exit 1; \
		echo "$$compiler with sanitizers: no error in the fuzzer"; \
	done

# by way of make, which sees that the picture is as it should be
picture: all
	@python3 examples/c/png.py $(PICTURE) docs/plate.png && echo "docs/plate.png shows $(PICTURE)"

demonstration:
	@mkdir -p build
	@cd crates/demonstration && $(RT) run 2>../../build/check.log || { tail -n 40 ../../build/check.log; exit 1; }

plot:
	awk -f docs/drift.awk crates/run_drift/stdout >docs/drift.svg

forms-check:
	@awk -f docs/forms.awk docs/DECISIONS.md

# the split's text as it is here; then what has to be noticed: a mean of four, which divides; a constant, which the compiler would have
# computed; and the split with the division of must-fail/divided_split.edit in it
SPLIT = split_vector split_component
SPLIT_SOURCE = crates/forming_predictions/src/lib.rt
MEANS_SOURCE = crates/forming_predictions/src/means.rt
UNDIVIDED = awk -f docs/undivided.awk
split-check:
	@mkdir -p build
	@$(UNDIVIDED) -v of='$(SPLIT)' $(SPLIT_SOURCE)
	@! $(UNDIVIDED) -v of=avg4 $(MEANS_SOURCE) >build/divided.txt
	@grep -q 'avg4 has a division' build/divided.txt
	@sed 's/^    vector >> 1$$/    vector >> one/' $(SPLIT_SOURCE) >build/named.src
	@! $(UNDIVIDED) -v of='$(SPLIT)' build/named.src >build/divided.txt
	@grep -q 'whole_part names one' build/divided.txt
	@awk -f docs/edited.awk crates/forming_predictions/must-fail/divided_split.edit $(SPLIT_SOURCE) >build/divided.src
	@! $(UNDIVIDED) -v of='$(SPLIT)' build/divided.src >build/divided.txt
	@grep -q 'is_half has a division' build/divided.txt
	@echo "where there is a division, the text shows it"

test:
	@.ci/run

COMPARE = cd differential && $(CARGO) run --release --offline --features compare --bin compare --

differential: lists-check replays compare

lists-check:
	cd differential && $(CARGO) run --release --offline --bin lists -- --check

REPLAYS = $(addprefix replay_,combine_predictions forming_predictions pmv inter_reconstruction placing fozdrik)

replays:
	@mkdir -p build
	@mkdir -p build/bin
	@echo "proving and building $(REPLAYS)"
	@for name in $(REPLAYS); do \
		(cd crates/$$name && $(RT) run <stdin) >build/$$name.txt 2>build/check.log || { tail -n 40 build/check.log; exit 1; }; \
		cp crates/$$name/out/$$name build/bin/$$name || exit 1; \
	done
	cd differential && $(CARGO) run --release --offline --bin lists -- --replay ../build/bin \
		$(if $(SEED),--seed $(SEED)) $(if $(ROUNDS),--rounds $(ROUNDS))

compare: $(LIBRARY)
	$(COMPARE) --wrong
	$(COMPARE) $(if $(SEED),--seed $(SEED)) $(if $(COUNT),--count $(COUNT))

lists:
	cd differential && $(CARGO) run --release --offline --bin lists

mutate:
	@python3 mutate/mutate.py --rt $(RT) $(if $(EVERY),--every $(EVERY)) $(if $(JOBS),--jobs $(JOBS)) $(ARGS)

# what the benchmark is linked with: libraries of the port, and the contestants in C
BENCH = build/bench
BENCH_LIBRARIES = $(addprefix $(BENCH)/,libfozdrik.a libbench_blocks.a libbench_pmv.a libcontestants.a)
CONTESTANTS = plain avcodec mpeg2

# an archive's path where the compiler finds it, and else nothing; empty ones leave the library out of the tables
archive = $(filter /%,$(shell $(CC) -print-file-name=$(1)))
LIBAVCODEC = $(if $(and $(call archive,libavcodec.a),$(call archive,libavutil.a)),$(call archive,libavcodec.a):$(call archive,libavutil.a))
LIBMPEG2 = $(call archive,libmpeg2.a)

bench: $(BENCH_LIBRARIES)
	cd differential && FOZDRIK_LIBAVCODEC=$(LIBAVCODEC) FOZDRIK_LIBMPEG2=$(LIBMPEG2) \
		$(CARGO) run --release --offline --features bench --bin bench -- $(ARGS)

$(BENCH)/libfozdrik.a: $(LIBRARY)
	@mkdir -p $(BENCH)
	@cp $(LIBRARY) $@

$(BENCH)/libbench_blocks.a: $(call sources,laws combine_predictions forming_predictions bench_blocks)
$(BENCH)/libbench_pmv.a: $(call sources,laws combine_predictions forming_predictions pmv bench_pmv)
$(BENCH)/libbench_%.a:
	@mkdir -p $(BENCH)
	@echo "proving and building $@"
	@(cd crates/bench_$* && $(RT) lib --cpu x86-64) >build/bench.log 2>&1 || { tail -n 40 build/bench.log; exit 1; }
	@cp crates/bench_$*/out/libbench_$*.a $@

$(BENCH)/libcontestants.a: $(wildcard differential/c/*.[ch]) include/fozdrik.h
	@mkdir -p $(BENCH)
	@rm -f $@
	@for name in $(CONTESTANTS); do \
		$(CC) -std=c99 $(C_FLAGS:-O2=-O3) -c differential/c/$$name.c -o $(BENCH)/$$name.o || exit 1; \
		$(AR) rcs $@ $(BENCH)/$$name.o || exit 1; \
	done

COUNTS = build/counts
KEPT_COUNTS = differential/counts/counts.txt
COUNTED = $(BENCH)/libfozdrik.a $(BENCH)/libbench_blocks.a

bench-counts: $(COUNTED)
	@command -v valgrind >/dev/null || { echo "valgrind is not installed, and nothing is counted"; exit 1; }
	@mkdir -p $(COUNTS)
	@rm -f $(COUNTS)/profile
	@$(CC) -std=c99 $(C_FLAGS) differential/counts/calls.c differential/counts/memory.s $(COUNTED) -o $(COUNTS)/calls
	@valgrind -q --tool=callgrind --toggle-collect='fozdrik_*' --dump-before=next_kind --combine-dumps=yes \
		--compress-strings=no --compress-pos=no --callgrind-out-file=$(COUNTS)/profile $(COUNTS)/calls >$(COUNTS)/kinds.txt
	@awk -f differential/counts/per_call.awk $(COUNTS)/kinds.txt $(COUNTS)/profile >$(COUNTS)/counts.txt
	@awk -v accept=$(ACCEPT) -f differential/counts/change.awk $(KEPT_COUNTS) $(COUNTS)/counts.txt
ifdef ACCEPT
	@cp $(COUNTS)/counts.txt $(KEPT_COUNTS) && echo "the new counts are kept in $(KEPT_COUNTS)"
endif

clean:
	rm -rf build target crates/*/out
