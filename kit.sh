# What the scripts share that start a program of the bench: where the Rattle kit is, proving and building, starting.
# The script that reads this has set `here` to the repository's folder.

say() { printf 'bench: %s\n' "$*" >&2; }
die() { say "$*"; exit 2; }

# The kit: the folder of the command rt, or RATTLE_HOME.
find_kit() {
    kit=${RATTLE_HOME:-}
    if [ -z "$kit" ]; then
        rt=$(command -v rt) || die "the Rattle kit is not here: put its command 'rt' on PATH, or set RATTLE_HOME to the kit's folder"
        kit=$(cd "$(dirname "$(readlink -f "$rt")")/.." && pwd -P)
    fi
    [ -x "$kit/bin/rt" ] || die "no kit at $kit: put its command 'rt' on PATH, or set RATTLE_HOME to the kit's folder"
    [ "$(uname -m)" = x86_64 ] || die "the kit at $kit has nothing for this machine, $(uname -m)"
}

# build PROGRAM: proves and builds a program that is missing or older than what it is made of; says which crate is proved.
# `rt ci` and `rt run` leave it in its crate's out/. `rt run` also runs it, on its file stdin.
build() {
    folder=$here/crates/$1
    binary=$folder/out/$1
    if [ -f "$binary" ] && [ -z "$(find "$here/crates.txt" "$here/crates" -name out -prune -o -type f -newer "$binary" -print 2>/dev/null | head -n 1)" ]; then return; fi
    say "proving and building '$1'; the first time this takes some minutes"
    log=$(mktemp) || exit 2
    input=$folder/stdin
    [ -f "$input" ] || input=/dev/null
    crate=$1
    (cd "$folder" && "$kit/bin/rt" run <"$input" 2>&1 >/dev/null; echo "status $?") | while IFS= read -r line; do
        printf '%s\n' "$line" >>"$log"
        case $line in
            'crate '*': modules '*) crate=${line#crate } ;;
            'logic=proved '*) say "${crate%%:*} proved" ;;
        esac
    done
    if [ "$(tail -n 1 "$log")" != "status 0" ] || [ ! -f "$binary" ]; then
        sed '$d' "$log" | tail -n 20 >&2
        rm -f "$log"
        die "'$1' was not built: the lines above say what the kit found"
    fi
    rm -f "$log"
    touch "$binary"
}

# start PROGRAM: it ends with status 1, and has said why, where it could not read or write.
start() { "$here/crates/$1/out/$1"; }
