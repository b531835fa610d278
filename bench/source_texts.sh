# What the benches on source texts share; they read it at the top of the repository, with their arguments.
# It sets `texts` to the source texts named, or to the library's, and `work` to a folder for this run.
[ $# -gt 0 ] || set -- bench/texts/runtime.odin bench/texts/mem.odin
texts=()
for text in "$@"; do texts+=("$(realpath "$text")"); done
work=$(mktemp -d)
trap 'rm -rf "$work"' EXIT

# Builds front_bench, runs it five times on $work/text with these words, and prints what it said, which
# $work/said keeps. It sets `best` to the least time, in nanoseconds.
time_five() {
    cd crates/front_bench
    rt run front_bench -- "$@" <"$work/text" >"$work/first"
    best=
    local begun took
    for _ in 1 2 3 4 5; do
        begun=$(date +%s%N)
        out/front_bench "$@" <"$work/text" >"$work/said"
        took=$(($(date +%s%N) - begun))
        [ -n "$best" ] && [ "$best" -le "$took" ] || best=$took
    done
    cat "$work/said"
}
