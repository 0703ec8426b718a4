#!/bin/sh
# The must-fail edits that the gate leaves out (crates/NAME/more-must-fail), of the crates named, or of all: each must be refused, for a fact and not
# for a name or at a limit, and first in the module that it changes. The last line has the counts. It works on a copy in which they stand in must-fail/.
set -eu
root=$(cd "$(dirname "$0")/.." && pwd)
copy=$(mktemp -d)
trap 'rm -rf "$copy"' EXIT
cd "$root"
handles=
if [ -f HANDLES ]; then handles=HANDLES; fi
# Without what rt made: it finds what a check of this checkout kept.
# shellcheck disable=SC2086
tar -cf - --exclude='crates/*/out' crates crates.txt $handles | tar -C "$copy" -xf -
rm -rf "$copy"/crates/*/must-fail
tried=0
names=
for more in "$copy"/crates/*/more-must-fail; do
    crate=$(basename "$(dirname "$more")")
    case " $* " in
        "  " | *" $crate "*)
            mv "$more" "$copy/crates/$crate/must-fail"
            names="$names $crate"
            tried=$((tried + $(ls "$copy/crates/$crate/must-fail" | wc -l)))
            ;;
    esac
done
for crate in "$@"; do
    case " $names " in *" $crate "*) ;; *) echo "edits: $crate has none" ;; esac
done
if [ -z "$names" ]; then echo 'edits: 0 tried'; exit 0; fi
cd "$copy"
status=0
# shellcheck disable=SC2086
rt must-fail $names > log 2>&1 || status=$?
grep '^rt: must-fail\|BAD EDIT\|NOT REFUSED\|NOT TRIED' log || cat log
# Where the first error of an edit's check stands: src/MODULE.rt, or proofs/MODULE for its proofs; the root (src/lib.rt, src/main.rt) has its proofs
# in the other folders, and a method has them in proofs/TYPE/METHOD. An edit of a definition is refused by a law.
elsewhere=0
for edit in crates/*/must-fail/*.edit; do
    crate=$(echo "$edit" | cut -d/ -f2)
    label=$(basename "$edit")
    module=$(sed -n 's,^file: src/\(.*\)\.rt$,\1,p' "$edit" | head -n 1)
    first=$(sed -n "s,^rt: must-fail $crate/$label: refused\, as it must be,,p" log | sed 's,^ ([^)]*),,; s,^: ,,; s,^note: ,,; s,^\./,,')
    if [ -z "$module" ] || [ -z "$first" ] || grep -q '^file: specs/' "$edit"; then continue; fi
    case $first in "src/$module.rt:"* | "proofs/$module/"*) continue ;; esac
    folder=$(echo "$first" | cut -d/ -f2)
    method=$(echo "$first" | cut -d/ -f3)
    source=crates/$crate/src/$module.rt
    case $first in proofs/*/*/*) if grep -Eq "^impl.* $folder(<| )" "$source" && grep -Eq "fn $method\\b" "$source"; then continue; fi ;; esac
    case $module:$first in lib:proofs/* | main:proofs/*) if [ ! -f "crates/$crate/src/$folder.rt" ]; then continue; fi ;; esac
    elsewhere=$((elsewhere + 1))
    echo "edits: $crate/$label changes src/$module.rt and is first refused at $(echo "$first" | cut -d: -f1-3)"
done
refused=$(grep -c '^rt: must-fail .*: refused, as it must be' log || true)
little=$(grep -c '^rt: must-fail .*: refused, as it must be (' log || true)
echo "edits: $tried tried, $refused refused, $little of them only by a name that a proof file has or by a limit, $elsewhere first in another module"
[ "$status" -eq 0 ] && [ "$refused" -eq "$tried" ] && [ "$little" -eq 0 ] && [ "$elsewhere" -eq 0 ]
