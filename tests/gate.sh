#!/bin/sh
# The gate: that what the documents name is there, and that the reference has the C header's numbers; `rt ci`, which proves everything, tries the
# must-fail edits, runs the programs and wants the sources in `rt fmt`'s layout; then, over what was just proved, calls, texts and validation against
# node's own objects, the C programs, the Rust crate's tests, with clippy where it is installed, and the instructions of a step. It fails at the first
# that fails, and where a must-fail edit is bad. The tally of `rt ci` is printed last.
set -eu
cd "$(dirname "$0")/.."
log=$(mktemp)
trap 'rm -f "$log"' EXIT
tests/install.sh node gcc g++ cargo valgrind
node tests/paths.mjs
node tests/reference.mjs
{ rt ci 2>&1 || echo 'rt ci failed'; } | tee "$log"
tally=$(grep '^[0-9]* passed, [0-9]* failed$' "$log" | tail -n 1)
case $tally in *' passed, 0 failed') ;; *) exit 1 ;; esac
if grep -q '^rt ci failed$' "$log"; then exit 1; fi
if grep -q '^rt: ok;.*, [0-9]* bad' "$log"; then echo 'a must-fail edit is bad'; exit 1; fi
CI_BUILT=yes make engine-check text-check day-check validation-check c-test bindings cost
echo "$tally"
