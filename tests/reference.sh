#!/bin/sh
# The independent reference (tests/reference, written from the scope document and the requests alone) and the bench agree: on the vectors,
# and on fresh inputs made by seed. Use: reference.sh [FIRST-SEED [HOW-MANY]]
. "$(dirname "$0")/common.sh"
first=${1:-$(date +%s)} many=${2:-250}
build_reference
# refer WORD..: the reference with the requests that have landed
refer() { "$reference" "$@" --with "$landed"; }

for kind in $kinds; do
    for input in "$root/tests/vectors/$kind"/*.in; do
        refer "${kind#bad-}" <"$input" >"$work/got"
        same "reference on $kind/$(basename "$input")" "${input%.in}.out" "$work/got"
    done
done
programs=$(printf '%s\n' $kinds | sed 's/^bad-//' | sort -u)
echo "fresh inputs: seeds $first to $((first + many - 1)), for" $programs
for kind in $programs; do
    seed=$first
    while [ "$seed" -lt $((first + many)) ]; do
        name="$kind, seed $seed ('tests/reference.sh $seed 1' shows it again)"
        if refer generate "$kind" "$seed" >"$work/in" && refer "$kind" <"$work/in" >"$work/wanted"; then
            "$root/bench" "$kind" "$work/in" >"$work/got"
            same "$name" "$work/wanted" "$work/got"
        else
            miss "$name: the reference failed"
        fi
        seed=$((seed + 1))
    done
done
verdict
