#!/usr/bin/env bash
# How long a file of 1 MiB takes to be read into its tree, tokens included: the declarations of the source
# texts named as arguments, or of the library's texts beside this script, over and over again in one package.
# Prints the least of five times, and fails where the text is no file or takes a second or more.
set -eu
cd "$(dirname "$0")/.."
. bench/source_texts.sh
echo 'package texts' >"$work/text"
while [ "$(stat -c %s "$work/text")" -lt $((1 << 20)) ]; do
    for text in "${texts[@]}"; do sed '/^package /d' "$text" >>"$work/text"; done
done
time_five
grep -q '^[0-9]* tokens, [0-9]* declarations$' "$work/said" || { echo "the text is no file" >&2; exit 1; }
size=$(stat -c %s "$work/text")
echo "$size bytes in $((best / 1000)) microseconds"
[ "$best" -lt 1000000000 ] || { echo "a second or more" >&2; exit 1; }
