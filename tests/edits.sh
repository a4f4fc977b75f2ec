#!/bin/sh
# The edits that must be refused beyond those of the gate: folder edits/, by crate. An edit costs one check of its crate, so the gate
# has only some of them. Use: tests/edits.sh CRATE..; all crates of the folder if none is named.
. "$(dirname "$0")/common.sh"
cd "$root" || exit 1
[ $# -gt 0 ] || set -- $(ls edits)
for crate in "$@"; do
    [ -d "edits/$crate" ] || { miss "edits/$crate: there is no such folder"; continue; }
    rm -rf "$work/tree"
    mkdir "$work/tree"
    # Without out/: rt begins with what a check of the same crate kept in this copy of the repository.
    tar -cf - --exclude=out crates crates.txt | tar -xf - -C "$work/tree"
    rm -rf "$work/tree/crates"/*/must-fail
    cp -R "edits/$crate" "$work/tree/crates/$crate/must-fail"
    (cd "$work/tree" && rt must-fail "$crate") >"$work/log" 2>&1
    for edit in "edits/$crate"/*.edit; do
        name=$crate/$(basename "$edit")
        if grep -qF "must-fail $name: refused, as it must be" "$work/log"; then pass; else
            miss "$name was not refused"
            grep -F "must-fail $name: " "$work/log" || tail -n 5 "$work/log"
        fi
    done
done
verdict
