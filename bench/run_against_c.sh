#!/usr/bin/env bash
# Runs one loop of 200,000,000 instructions by the proved runner and by bench/rvrun.c, and prints the
# least processor time of five runs of each, and their ratio. It wants gcc and the toolchain; it is no part of the gate.
if [ "${1:-}" = --help ]; then sed '1d; /^#/!Q; s/^# \{0,1\}//' "$0"; exit 0; fi
set -eu
top=$(cd "$(dirname "$0")/.." && pwd)
crate=$top/crates/runner_bench
program=$crate/out/runner_bench
count=${1:-25000000}
work=$(mktemp -d)
trap 'rm -rf "$work"' EXIT

(cd "$crate" && rt run -- 1000) >"$work/build.log" 2>&1 || { tail -n 20 "$work/build.log" >&2; exit 1; }
gcc -O2 -o "$work/rvrun" "$top/bench/rvrun.c"
"$program" "$count" listing >"$work/loop.lst"

# The least milliseconds of processor time that a command takes, of five runs.
least() {
    local best=0 took
    TIMEFORMAT=%3U
    for _ in 1 2 3 4 5; do
        took=$({ time "$@" >"$work/out" 2>"$work/err"; } 2>&1)
        took=$((10#${took//[!0-9]/}))
        if [ "$best" -eq 0 ] || [ "$took" -lt "$best" ]; then best=$took; fi
    done
    echo "$best"
}

ours=$(least "$program" "$count")
retired=$(sed -n 's/^retired //p' "$work/out")
theirs=$(least "$work/rvrun" "$work/loop.lst" 1000)
theirs_retired=$(sed -n 's/.*retired \([0-9]*\).*/\1/p' "$work/err")
[ "$retired" = "$theirs_retired" ] || { echo "retired $retired and $theirs_retired" >&2; exit 1; }

echo "instructions $retired"
echo "this repository $ours ms, C $theirs ms"
awk -v a="$ours" -v b="$theirs" 'BEGIN { printf "ratio %.2f\n", a / b }'
