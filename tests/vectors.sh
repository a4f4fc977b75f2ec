#!/bin/sh
# Every input of tests/vectors gives its output, and so does every case of tests/cases.tsv (name, output, input as printf %b reads it, reason).
. "$(dirname "$0")/common.sh"
for kind in $kinds; do
    for input in "$root/tests/vectors/$kind"/*.in; do
        "$root/bench" "${kind#bad-}" "$input" >"$work/got"
        same "$kind/$(basename "$input")" "${input%.in}.out" "$work/got"
    done
done
tab=$(printf '\t')
while IFS=$tab read -r name wanted input reason; do
    printf '%b' "$wanted" >"$work/wanted"
    printf '%b' "$input" >"$work/in"
    "$root/bench" list "$work/in" >"$work/got"
    same "case $name: $reason" "$work/wanted" "$work/got"
done <"$root/tests/cases.tsv"
verdict
