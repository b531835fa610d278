#!/usr/bin/env bash
# The time of `run` on a text of 16 KiB with the built program, read, compiled and run: the least and the
# middle of 21 runs, in milliseconds. Build it first, with the command of the README.
set -u
cd "$(dirname "$0")/.." || exit 2
program=$PWD/crates/odin_rv/out/odin_rv
[ -x "$program" ] || { echo "build crates/odin_rv first"; exit 2; }
folder=$(mktemp -d) || exit 2
trap 'rm -rf "$folder"' EXIT
awk 'BEGIN {
    head = "package main\nimport \"core:fmt\"\nmain :: proc() {\n"
    text = head
    letters = "abcdefghijklmnopqrstuvwxyz"
    for (i = 1; i <= 26; i++) text = text "\t" substr(letters, i, 1) " := " i * 1234567 "\n"
    for (i = 0; ; i++) {
        x = substr(letters, i % 26 + 1, 1); y = substr(letters, (i * 7) % 26 + 1, 1)
        line = i % 2 ? "\t" x " = " y " * " x " * 3 - " i " + " x " * " y "\n" : "\tfmt.println(" x ", " y " + " i ", " x " * " x ")\n"
        if (length(text) + length(line) + 2 > 16384) break
        text = text line
    }
    printf "%s}\n", text
}' > "$folder/main.odin"
wc -c < "$folder/main.odin"
for _ in $(seq 21); do
    from=$(date +%s%N)
    "$program" run "$folder" > /dev/null || exit 1
    to=$(date +%s%N)
    echo $(((to - from) / 1000))
done | sort -n | awk '{ all[NR] = $1 } END { printf "least %.1f ms, middle %.1f ms\n", all[1] / 1000, all[int((NR + 1) / 2)] / 1000 }'
