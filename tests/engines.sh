#!/bin/sh
# Runs calls on a JavaScript engine, and holds crates/replay against what the engine answers.
#
#     tests/engines.sh ENGINE SEED CALLS [REPLAY]      ENGINE: node, gjs or jsc; REPLAY: target/bin/replay, or another
#
# It fails unless all calls were compared, none differed, and every message and every refusal occurred; of 20,000 calls and more, every number of a
# validation too, of a page refusals 2, 3 and 11, and of releases refusal 14 for each way of being named and 2 for each place of a released number.
# target/bin/replay is there after 'tests/build.sh replay'.
set -e
cat tests/engines/*.js > target/engines.js
case $1 in
    jsc) jsc target/engines.js -- "$2" "$3" ;;
    *) "$1" target/engines.js "$2" "$3" ;;
esac | "${4:-target/bin/replay}" > "target/engines-$1"
sed "s/^/$1: /" "target/engines-$1"
grep -qx "$3 calls, 0 differences" "target/engines-$1"
grep -qx "0 messages and 0 refusals missing" "target/engines-$1"
