#!/bin/sh
# Runs a command that proves, and prints a line for each crate whose proof begins; all that it wrote only where it fails.
set -u
log=$(mktemp)
trap 'rm -f "$log"' EXIT
{ "$@" 2>&1; echo "ended with $?"; } | tee "$log" | sed -u -n 's/^rt: chose --jobs [0-9]* for \([a-z_]*\)$/proving \1/p'
status=$(sed -n 's/^ended with //p' "$log" | tail -n 1)
if [ "$status" -ne 0 ]; then cat "$log" >&2; fi
exit "$status"
