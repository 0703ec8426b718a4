# rt is Rattle's command: it proves the crates of crates.txt and runs their programs.
.PHONY: run test text-check day-check validation-check edits bench bench-text cost vectors messages \
	engines engine-check engine-damage install-engines lib c-test bindings example fuzz

# A day of steps and string entries over one store, performed by the proved program: each call and what came of it. It needs cargo.
run:
	@tests/install.sh cargo
	@tests/progress.sh tests/build.sh text_steps
	@tests/progress.sh $(MAKE) --no-print-directory lib
	@target/bin/text_steps < crates/text_steps/stdin | (cd bindings/rust && cargo run --quiet --offline --bin steps -- --rows examples/day.steps)

# The gate. It ends in 'N passed, 0 failed'.
test:
	tests/gate.sh

# The program on texts of valid and broken lines, against rows that share no code with it. It needs node.
text-check:
	tests/build.sh text_steps
	node tests/text.mjs check target/bin/text_steps

# The stored rows of the day against node's own objects: all but the calls.
day-check:
	node tests/rows.mjs crates/text_steps/stdin crates/text_steps/stdout

# Every small pair of a current and a wanted descriptor, against the standard's text and node: the first test that fails. It needs node and gcc.
validation-check: lib
	node tests/validation.mjs > target/validation-cases
	gcc -Wall -Wextra -Wpedantic -Werror -std=c11 -O1 -fsanitize=undefined -fno-sanitize-recover=undefined -Iinclude \
		-o target/lib/validation tests/c/validation.c target/lib/libdemnyaluz.a
	target/lib/validation < target/validation-cases

# The must-fail edits that the gate leaves out, of all crates or of CRATES="NAME NAME".
edits:
	tests/edits.sh $(CRATES)

# The store beside a Vec of structs in Rust, then steps beside the engines that are installed, in ns, with docs/benchmarks.svg: docs/BENCHMARKS.md.
# It needs rustc and node.
bench:
	tests/build.sh benchmark_store
	rustc --edition 2021 -O -C target-cpu=x86-64 -L target/lib -o target/bench bench/bench.rs
	target/bench
	tests/build.sh demnyaluz
	rustc --edition 2021 -O -C target-cpu=x86-64 -L target/lib -o target/steps bench/steps.rs
	node bench/compare.mjs

# 100,000 lines of steps through the program, beside node programs that only split the lines and decode their cells: lines a second.
bench-text:
	tests/build.sh text_steps
	node bench/text.mjs make > target/text-lines
	node bench/text.mjs compare target/bin/text_steps target/text-lines

# The instructions of a step, counted, beside those of bench/cost.txt; it fails where one is a tenth worse. It needs gcc and valgrind.
cost: lib
	tests/cost.sh

# The outside vectors, the day's lines with the plain implementation's rows, and the fixed list of node's answers, made anew: the same bytes, unless
# the scripts or node's texts changed. It needs node and cargo.
vectors: lib
	node tests/vectors.mjs > crates/vectors/stdin
	cd bindings/rust && cargo run --quiet --offline --bin steps -- --cells examples/day.steps > ../../crates/text_steps/stdin
	cd bindings/rust && cargo run --quiet --offline --example plain_text < ../../crates/text_steps/stdin > ../../crates/text_steps/stdout
	mkdir -p target
	cat tests/engines/*.js > target/engines.js
	node target/engines.js 1 400 fixed > crates/replay/stdin

# Calls performed by the engines that are installed, on their own objects, against our own: CALLS on each, from SEED.
SEED = 1
CALLS = 356000
engines:
	tests/build.sh replay
	for engine in node gjs jsc; do if command -v $$engine > /dev/null; then sh tests/engines.sh $$engine $(SEED) $(CALLS) || exit 1; fi; done

# A smaller part of the same, on node alone: of fewer calls the rarest messages may be missing.
engine-check:
	tests/build.sh replay
	sh tests/engines.sh node 7 89000

# Whether the comparison notices a change in each part of an expectation. It needs python3.
engine-damage:
	tests/build.sh replay
	python3 tests/engines-damage.py

# gjs and jsc, from Debian's packages.
install-engines:
	tests/install.sh node gjs jsc

# The message table against boa_engine's source, which lies in the folder BOA.
messages:
	python3 tests/messages.py $(BOA)

# The library for C and Rust: target/lib/libdemnyaluz.a, and include/demnyaluz.h says how it is called.
lib:
	tests/build.sh demnyaluz

# The library through its header, by seven C programs, one of them as C++ too and two under valgrind too. It needs gcc, g++ and valgrind, which is not
# asked for undefined values: it takes the sign of a word for undefined where other bits of the word are padding. The library has no other names, and
# asks for memcpy and memset alone.
c-test: lib
	for program in sealed functions release page text records null; do \
		gcc -Wall -Wextra -Wpedantic -Werror -std=c11 -O1 -fsanitize=undefined -fno-sanitize-recover=undefined -Iinclude \
			-o target/lib/$$program tests/c/$$program.c target/lib/libdemnyaluz.a && target/lib/$$program || exit 1; \
	done
	g++ -Wall -Wextra -Werror -std=c++17 -O1 -Iinclude -o target/lib/records-c++ -x c++ tests/c/records.c -x none target/lib/libdemnyaluz.a
	target/lib/records-c++
	valgrind --quiet --undef-value-errors=no --error-exitcode=1 target/lib/null
	valgrind --quiet --undef-value-errors=no --error-exitcode=1 target/lib/release
	! nm -g --defined-only target/lib/libdemnyaluz.a | grep ' [A-Z] ' | grep -v ' T demnyaluz_'
	! nm -u target/lib/libdemnyaluz.a | grep ' U ' | grep -v -x ' *U mem\(cpy\|set\)'

# The Rust crate's tests, against a plain implementation, and its documentation; then its formatting and clippy, where they are installed. It needs
# cargo, and no network.
bindings: lib
	cd bindings/rust && cargo test --offline
	cd bindings/rust && RUSTDOCFLAGS='-D warnings' cargo doc --quiet --offline --no-deps
	cd bindings/rust && if cargo fmt --version > /dev/null 2>&1; then cargo fmt --check; fi
	cd bindings/rust && if cargo clippy --version > /dev/null 2>&1; then cargo clippy --offline --all-targets -- -D warnings; fi

# The sealed 70,000 through the Rust crate.
example: lib
	cd bindings/rust && cargo run --quiet --offline --example sealed

# A million random and mutated records, sheets and pages through the C interface, each held against the plain implementation.
COUNT = 1000000
fuzz: lib
	cd bindings/rust && cargo run --quiet --release --offline --example fuzz -- $(COUNT) $(SEED)
