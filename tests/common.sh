# What the test scripts share. Each of them counts what passed and what was missed, and ends with 'N passed, M failed'.
set -u
root=$(cd "$(dirname "$0")/.." && pwd -P) || exit 1
work=$(mktemp -d) || exit 1
trap 'rm -rf "$work"' EXIT
passed=0 failed=0
# The requests of document 02 that have landed, as 1,2,3: the reference goes by these, and so does the generator.
landed=''

pass() { passed=$((passed + 1)); }
miss() {
    failed=$((failed + 1))
    echo "missed: $*"
}
# same NAME WANTED GOT: the two files are equal
same() {
    if cmp -s "$2" "$3"; then pass; else
        miss "$1"
        diff "$2" "$3" | head -n 5 | cut -c 1-160
    fi
}
# The sorts of inputs in tests/vectors: the program's name, behind bad- where most are damaged.
kinds=$(ls "$root/tests/vectors")
[ -n "$kinds" ] || miss "tests/vectors has no inputs"
# need COMMAND: Debian's package of that name, where the command is missing
need() {
    command -v "$1" >/dev/null 2>&1 || { apt-get update && apt-get install -y "$1"; } >"$work/apt" 2>&1
}
# build_reference: builds the independent reference; without it there is nothing to compare with
build_reference() {
    reference=$root/tests/reference/target/release/reference
    need cargo
    (cd "$root/tests/reference" && cargo build --release --offline) >"$work/cargo" 2>&1 && return
    cat "$work/cargo"
    miss "the reference was not built"
    verdict
    exit 1
}
verdict() {
    echo "$passed passed, $failed failed"
    [ "$failed" = 0 ]
}
