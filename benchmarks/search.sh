#!/bin/sh
# Schedules entered a second by the bench's list program and by the walker, a plain one written by hand in Rust
# (walker/), on the models in models/. Both must print the same. The two run in turn; of each the best turn counts, in
# processor time, so that other work on the machine spoils little. Use: search.sh [TURNS], five if none are given.
# LIST=PROGRAM measures another build of the list program. Figures for people; no test goes by them.
set -eu
export LC_ALL=C
here=$(cd "$(dirname "$0")/.." && pwd -P)
. "$here/kit.sh"
cd "$here"
turns=${1:-5}
walker=benchmarks/walker/target/release/walker
work=$(mktemp -d)
trap 'rm -rf "$work"' EXIT

build_walker() {
    if command -v cargo >/dev/null 2>&1; then
        cargo build --release --offline --quiet --manifest-path benchmarks/walker/Cargo.toml
    elif command -v rustc >/dev/null 2>&1; then
        mkdir -p "$(dirname "$walker")"
        rustc -O -C lto --edition 2021 -o "$walker" benchmarks/walker/src/main.rs
    else
        echo "the walker cannot be built: neither cargo nor rustc is here; both come with Rust" >&2
        exit 1
    fi
}

bench_list() {
    if [ -n "${LIST:-}" ]; then "$LIST"; else ./bench list; fi
}

# spent OUTPUT COMMAND..: milliseconds of processor time of the command on the input; its output goes to a file.
# times has two lines: the shell's own user and system time, then those of what it has started.
spent() {
    out=$1
    shift
    ("$@" <"$work/in" >"$out" && times) >"$work/times" || { echo "'$*' failed" >&2; exit 1; }
    awk 'NR == 2 { for (i = 1; i <= 2; i++) { split($i, part, /[ms]/); sum += part[1] * 60 + part[2] }; printf "%d\n", sum * 1000 }' "$work/times"
}

# less OLD NEW: the smaller of two, NEW where there is no old one yet
less() {
    if [ -z "$1" ] || [ "$2" -lt "$1" ]; then echo "$2"; else echo "$1"; fi
}

# rate ENTERED MILLISECONDS: thousands of schedules a second
rate() {
    awk -v n="$1" -v ms="$2" 'BEGIN { printf "%.0f", n / (ms > 0 ? ms : 1) }'
}

measure() {
    cat "benchmarks/models/$1.model" "benchmarks/models/$1.goal" >"$work/in"
    entered=$("$walker" count <"$work/in" | cut -d ' ' -f 2)
    listed='' walked='' turn=0
    while [ "$turn" -lt "$turns" ]; do
        took=$(spent "$work/walker" "$walker")
        walked=$(less "$walked" "$took")
        took=$(spent "$work/list" bench_list)
        listed=$(less "$listed" "$took")
        cmp -s "$work/walker" "$work/list" || { echo "$1: the list program and the walker print different listings" >&2; exit 1; }
        turn=$((turn + 1))
    done
    ratio=$(awk -v a="$walked" -v b="$listed" 'BEGIN { printf "%.2f", a / (b > 0 ? b : 1) }')
    echo "$1: $entered schedules entered; list $(rate "$entered" "$listed"), walker $(rate "$entered" "$walked") thousand a second; ratio $ratio"
}

build_walker
# Proves and builds the list program, where that is to be done, before any turn is measured.
cat models/bare.model models/bare.goal | bench_list >/dev/null
for goal in benchmarks/models/*.goal; do
    measure "$(basename "$goal" .goal)"
done
