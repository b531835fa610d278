#!/usr/bin/env bash
# The time of `run` on examples/first with the built program: the least and the middle of 21 runs, in
# milliseconds. Build it first, with the command of the README.
set -u
cd "$(dirname "$0")/.." || exit 2
program=crates/odin_rv/out/odin_rv
[ -x "$program" ] || { echo "build crates/odin_rv first"; exit 2; }
for _ in $(seq 21); do
    from=$(date +%s%N)
    "$program" run examples/first > /dev/null || exit 1
    to=$(date +%s%N)
    echo $(((to - from) / 1000))
done | sort -n | awk '{ all[NR] = $1 } END { printf "least %.1f ms, middle %.1f ms\n", all[1] / 1000, all[int((NR + 1) / 2)] / 1000 }'
