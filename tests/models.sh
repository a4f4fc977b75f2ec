#!/bin/sh
# Every shipped model has the listing and the runs that stand beside it.
. "$(dirname "$0")/common.sh"
for model in "$root/models"/*.model; do
    name=${model%.model}
    cat "$model" "$name.goal" | "$root/bench" list >"$work/got"
    same "$(basename "$name").list" "$name.list" "$work/got"
    for codes in "$name".codes "$name".*.codes; do
        [ -f "$codes" ] || continue
        cat "$model" "$codes" | "$root/bench" run >"$work/got"
        same "$(basename "${codes%.codes}").run" "${codes%.codes}.run" "$work/got"
    done
done
verdict
