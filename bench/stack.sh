#!/usr/bin/env bash
# How much stack the parser takes on the texts that nest as deep as they may: for each kind of nest, the least
# limit of the stack, in KiB, at which the built program still answers. Build it first:
# (cd crates/front_bench && rt run -- </dev/null).
set -u
cd "$(dirname "$0")/.." || exit 2
program=$PWD/crates/front_bench/out/front_bench
[ -x "$program" ] || { echo "build crates/front_bench first"; exit 2; }
work=$(mktemp -d) || exit 2
trap 'rm -rf "$work"' EXIT

# Writes a package of one declaration: what begins it, what opens a level, how often, what stands innermost,
# what closes a level, and what ends it.
nest() {
    printf 'package p\n%s' "$1"
    for _ in $(seq "$3"); do printf '%s' "$2"; done
    printf '%s' "$4"
    for _ in $(seq "$3"); do printf '%s' "$5"; done
    printf '%s\n' "$6"
}

# The least limit at which the program reads $work/text.
least() {
    local low=64 high=8192 middle
    while [ $((high - low)) -gt 16 ]; do
        middle=$(((low + high) / 2))
        if (ulimit -s "$middle" && "$program" <"$work/text" 2>/dev/null | grep -q declarations); then
            high=$middle
        else
            low=$middle
        fi
    done
    echo "$high"
}

while IFS='|' read -r name head open most middle close tail; do
    nest "$head" "$open" "$most" "$middle" "$close" "$tail" >"$work/text"
    printf '%-20s %5s KiB\n' "$name" "$(least)"
done <<'NESTS'
procedures|x := |proc ( a := |198|1| ) { }|
parentheses|x := |(|198|1|)|
signs|x := |- |198|1||
casts|x := |cast(T)|198|1||
calls|x := |f(|198|1|)|
literals|x := |{|198|1|}|
pointers|x: |^|198|T||
structs|x: |struct {a: |198|T|}|
procedure types|x: |proc(a: |198|T|)|
blocks|x :: proc() {|{|198||}|}
conditions|x :: proc() { |if a {|197||}| }
loops|x :: proc() { |for {|198||}| }
switches|x :: proc() { |switch {case: |198||}| }
deferred|x :: proc() { |defer |197|{}|| }
elses|x :: proc() { |if a {} else |197|{}|| }
NESTS
