# make run: lists the shipped sample (crates/listing/data). make test: the gate. Both need only the Rattle toolchain.
# make trace: every path and name in docs/TRACE.md is in the tree, and include/ora.h has the functions and refusals of
# the crates; it needs only a shell and awk.
# make second: make trace, and the tests of the second implementation, which also compare its listings with the
# program's, target/bin/listing, where make run has built it; it needs cargo.
# make listing: makes the sample of the listing program and the cases of listing_cases again; it needs cargo.
# make corpus: makes its cases in crates/corpus again (rust/second/CORPUS.md); it needs cargo.
# make bench: measures whole blocks, names, the writers of a stretch, the walk over the lengths and the encoder of a
# size section (docs/BENCHMARK.md); it needs cargo, and Linux on x86-64. It fails where answers differ, never for a
# speed.
# make compare: the library and the second implementation on a million cases (rust/compare), the tests of the Rust
# wrapper (rust/ora) and the examples in C; it needs cargo, a C compiler, and x86-64. SEED and COUNT choose other
# cases; with CASE one case of a seed is run, and nothing else.
# make compare-valgrind: fewer cases, in a memory checker; it needs valgrind too.
# make sample: makes the samples in examples/data again; it needs what make compare does.
# make cli: builds the command line tool (docs/CLI.md), target/cargo/release/frubanto; it needs the toolchain, cargo
# and four crates, of Debian's packages or the usual registry. make cli-test: its tests.
# make pipeline: reads of a simulator, mapped, encoded and decoded again; it needs make cli, bwa, minimap2 and samtools.
# make pipeline-bench: speed and memory of the tool on 2,000,000 reads, beside samtools; it needs the same.
.PHONY: run test trace second listing corpus bench library compare compare-valgrind sample cli cli-test pipeline \
  pipeline-bench
run:
	@command -v rt >/dev/null 2>&1 \
	  || { echo "run: the Rattle toolchain is missing: there is no command 'rt' on the PATH" >&2; exit 2; }
	@mkdir -p target/bin target/log
	@cd crates/listing && rt run -- data/reference data/blocks | tee ../../target/log/run.stdout
	@tail -n 1 target/log/run.stdout | grep -q -E '^(end blocks|refused) ' \
	  || { echo "run: the listing has no last line" >&2; exit 1; }
	@cp crates/listing/out/listing target/bin/listing

test:
	@bash .ci/run

trace:
	@sh docs/check_trace.sh
	@sh include/check_header.sh

second listing corpus bench compare compare-valgrind sample: export CARGO_TARGET_DIR ?= $(CURDIR)/target/cargo
second: trace
	@command -v cargo >/dev/null 2>&1 \
	  || { echo "second: Rust is missing: there is no command 'cargo' on the PATH" >&2; exit 2; }
	@cargo test --offline --manifest-path rust/second/Cargo.toml

listing:
	@command -v cargo >/dev/null 2>&1 \
	  || { echo "listing: Rust is missing: there is no command 'cargo' on the PATH" >&2; exit 2; }
	@cargo run --release --quiet --offline --manifest-path rust/second/Cargo.toml --bin make_listing -- crates

corpus:
	@command -v cargo >/dev/null 2>&1 \
	  || { echo "corpus: Rust is missing: there is no command 'cargo' on the PATH" >&2; exit 2; }
	@cargo run --release --quiet --offline --manifest-path rust/second/Cargo.toml --bin make_corpus -- crates/corpus

bench: library
	@command -v cargo >/dev/null 2>&1 \
	  || { echo "bench: Rust is missing: there is no command 'cargo' on the PATH" >&2; exit 2; }
	@cd crates/bench_exports && rt lib
	@cp crates/bench_exports/out/libbench_exports.a target/staticlib/
	@cargo run --release --quiet --offline --manifest-path rust/bench/Cargo.toml

# The C interface as target/staticlib/libcapi.a, for C and for rust/ora.
library:
	@command -v rt >/dev/null 2>&1 \
	  || { echo "library: the Rattle toolchain is missing: there is no command 'rt' on the PATH" >&2; exit 2; }
	@cd crates/capi && rt lib
	@mkdir -p target/staticlib && cp crates/capi/out/libcapi.a target/staticlib/

SEED = 1
COUNT = 1000000
VALGRIND_COUNT = 10000
COMPARE = rust/compare/Cargo.toml

compare: library
	@command -v cargo >/dev/null 2>&1 \
	  || { echo "compare: Rust is missing: there is no command 'cargo' on the PATH" >&2; exit 2; }
ifndef CASE
	@sh examples/check.sh target/staticlib/libcapi.a target/examples
	@cargo test --release --quiet --offline --manifest-path rust/ora/Cargo.toml
	@cargo test --release --quiet --offline --manifest-path $(COMPARE)
endif
	@cargo run --release --quiet --offline --manifest-path $(COMPARE) -- \
	  --seed $(SEED) $(if $(CASE),--case $(CASE),--count $(COUNT))

compare-valgrind: library
	@command -v cargo >/dev/null 2>&1 \
	  || { echo "compare-valgrind: Rust is missing: there is no command 'cargo' on the PATH" >&2; exit 2; }
	@command -v valgrind >/dev/null 2>&1 \
	  || { echo "compare-valgrind: there is no command 'valgrind' on the PATH" >&2; exit 2; }
	@cargo build --release --quiet --offline --manifest-path $(COMPARE)
	@valgrind --quiet --error-exitcode=1 --leak-check=full --show-leak-kinds=definite --errors-for-leak-kinds=definite \
	  $$CARGO_TARGET_DIR/release/compare --seed $(SEED) --count $(VALGRIND_COUNT) --threads 1

sample: library
	@command -v cargo >/dev/null 2>&1 \
	  || { echo "sample: Rust is missing: there is no command 'cargo' on the PATH" >&2; exit 2; }
	@cargo run --release --quiet --offline --manifest-path $(COMPARE) --bin make_sample -- examples/data

cli:
	@sh rust/cli/cargo.sh build --release

cli-test:
	@sh rust/cli/cargo.sh test

pipeline: cli
	@bash rust/cli/pipeline.sh

pipeline-bench: cli
	@bash rust/cli/pipeline.sh bench
