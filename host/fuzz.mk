# The fuzz target over the C interface (host/rust/fuzz): scripts of calls, made by the library and by the second implementation.
# Included by host.mk.
#
#   make host-fuzz                scripts from their numbers, by the plain driver; the gate runs it
#   make fuzz FUZZ_RUNS=1000000   the same body under libFuzzer, by hand; it keeps what it learns in target/fuzz/corpus, and a script
#                                 that was not as the second implementation has it in target/fuzz, where 'fuzz file PATH' repeats it
#
# The library's archive is not instrumented: the second implementation's branches guide libFuzzer. Reads and writes past lent memory
# meet pages that may not be touched.
FUZZ_SCRIPTS ?= 25000

# How many scripts libFuzzer makes, -1 for no end, and for how many seconds at most, 0 for no end.
FUZZ_RUNS ?= 100000
FUZZ_SECONDS ?= 0

# The longest script, in bytes, as in host/rust/fuzz/src/lib.rs.
FUZZ_LONGEST := 512

FUZZ_OUT := target/fuzz

# Given with a target, so that cargo does not build its build scripts so.
FUZZ_TARGET := x86_64-unknown-linux-gnu
FUZZ_COVERAGE := -Cpasses=sancov-module -Cllvm-args=-sanitizer-coverage-level=3 \
    -Cllvm-args=-sanitizer-coverage-inline-8bit-counters -Cllvm-args=-sanitizer-coverage-pc-table

.PHONY: host-fuzz host-libfuzzer

host-fuzz:
	$(HOST_CARGO) run $(HOST_CARGO_FLAGS) --package fuzz -- $(FUZZ_SCRIPTS)

host-libfuzzer:
	@mkdir -p $(FUZZ_OUT)/corpus
	RUSTFLAGS='$(FUZZ_COVERAGE)' CARGO_TARGET_DIR=$(FUZZ_OUT)/cargo cargo build $(HOST_CARGO_FLAGS) --target $(FUZZ_TARGET) --package fuzz --lib
	clang -fsanitize=fuzzer -o $(FUZZ_OUT)/libfuzzer $(FUZZ_OUT)/cargo/$(FUZZ_TARGET)/release/libfuzz.a
	$(FUZZ_OUT)/libfuzzer -runs=$(FUZZ_RUNS) -max_total_time=$(FUZZ_SECONDS) -max_len=$(FUZZ_LONGEST) -len_control=0 -timeout=10 \
	    -print_final_stats=1 -artifact_prefix=$(FUZZ_OUT)/ $(FUZZ_OUT)/corpus
