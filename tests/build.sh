#!/bin/sh
# Proves the crates named and what they stand on, and puts what is built of each where the documents say: target/bin/NAME of a program, which is run on
# no input, and target/lib/libNAME.a of a static library. With CI_BUILT=yes a program is the one that `rt ci` has just proved and built here.
set -eu
cd "$(dirname "$0")/.."
root=$PWD
mkdir -p target/bin target/lib
for crate in "$@"; do
    cd "$root/crates/$crate"
    if grep -q "^$crate staticlib:" "$root/crates.txt"; then
        rt lib
        cp "out/lib$crate.a" "$root/target/lib/lib$crate.a"
    else
        if [ "${CI_BUILT:-}" != yes ]; then rt run < /dev/null > /dev/null; fi
        cp "out/$crate" "$root/target/bin/$crate"
    fi
done
