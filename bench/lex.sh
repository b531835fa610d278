#!/usr/bin/env bash
# How fast the lexer reads: 8 MiB of the source texts named as arguments, or of the library's texts
# beside this script, one after another and over again. Prints the tokens and the megabytes a second,
# and fails where the text is not read whole.
set -eu
cd "$(dirname "$0")/.."
. bench/source_texts.sh
while [ "$(stat -c %s "$work/text" 2>/dev/null || echo 0)" -lt $((8 << 20)) ]; do
    cat "${texts[@]}" >>"$work/text"
    echo >>"$work/text"
done
time_five lex
grep -q '^[0-9]* tokens$' "$work/said" || { echo "the text has no tokens" >&2; exit 1; }
size=$(stat -c %s "$work/text")
echo "$size bytes in $((best / 1000)) microseconds: $((size * 1000 / best)) MB/s"
