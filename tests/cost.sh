#!/bin/sh
# The instructions of one turn of each work of bench/cost.c, counted under valgrind beside those of bench/cost.txt: the difference of a run with twice the
# turns and one with the turns, divided by them. It fails where one is more than a tenth above what is stored; a row that has none yet is counted alone.
# 'tests/cost.sh store' stores them. A turn of freeze-N begins with the copying of the open store, 13,360 bytes, since it can be done but once.
# It needs the library (make lib), gcc and valgrind.
set -eu
cd "$(dirname "$0")/.."
gcc -Wall -Wextra -Werror -std=c11 -O2 -Iinclude -o target/lib/cost bench/cost.c target/lib/libdemnyaluz.a
instructions() { # WORK TURNS
    valgrind --tool=cachegrind --cache-sim=no --cachegrind-out-file=/dev/null --log-fd=9 target/lib/cost "$1" "$2" 9>&1 | sed -n 's/,//g; s/.*I *refs: *//p'
}
table=$(mktemp)
trap 'rm -f "$table"' EXIT
worse=0
printf '%-18s%14s%10s%8s\n' 'one turn' instructions stored ratio
while read -r work turns stored; do
    once=$(instructions "$work" "$turns")
    twice=$(instructions "$work" $((turns * 2)))
    now=$(((twice - once) / turns))
    echo "$work $turns $now" >> "$table"
    if [ -z "$stored" ]; then
        printf '%-18s%14d\n' "$work" "$now"
        continue
    fi
    printf '%-18s%14d%10d%8s\n' "$work" "$now" "$stored" "$(awk "BEGIN { printf \"%.2f\", $now / $stored }")"
    [ $((now * 10)) -le $((stored * 11)) ] || worse=$((worse + 1))
done < bench/cost.txt
if [ "${1:-}" = store ]; then
    cp "$table" bench/cost.txt
elif [ "$worse" -ne 0 ]; then
    echo "$worse of them more than a tenth above what is stored"
    exit 1
fi
