#!/usr/bin/env bash
# The time of a recursion of 10,000 calls with the built program: `run` on a text that makes them and on one
# that makes a single call, the least and the middle of 21 runs each, in milliseconds. What they differ by is
# the time of the calls. Build it first, with the command of the README.
set -u
cd "$(dirname "$0")/.." || exit 2
program=$PWD/crates/odin_rv/out/odin_rv
[ -x "$program" ] || { echo "build crates/odin_rv first"; exit 2; }
folder=$(mktemp -d) || exit 2
trap 'rm -rf "$folder"' EXIT
for depth in 0 10000; do
    printf '%s\n' 'package main' 'import "core:fmt"' \
        'F :: proc(a: int) -> int {' $'\tb := 0' $'\tif 0 < a {' $'\t\tb = F(a - 1) + 1' $'\t}' $'\treturn b' '}' \
        'main :: proc() {' $'\tfmt.println(F('"$depth"'))' '}' > "$folder/main.odin"
    for _ in $(seq 21); do
        from=$(date +%s%N)
        printed=$("$program" run "$folder") || exit 1
        to=$(date +%s%N)
        [ "$printed" = "$depth" ] || { echo "printed $printed"; exit 1; }
        echo $(((to - from) / 1000))
    done | sort -n | awk -v depth="$depth" '{ all[NR] = $1 } END { printf "%d calls behind the first: least %.1f ms, middle %.1f ms\n", depth, all[1] / 1000, all[int((NR + 1) / 2)] / 1000 }'
done
