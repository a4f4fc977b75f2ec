#!/bin/sh
# Nanoseconds of a lookup in a table of 300 terms, the mean over all places: the program find_rate makes two million.
# Prints one line. A figure for people; no test goes by it.
set -eu
here=$(cd "$(dirname "$0")/.." && pwd -P)
. "$here/kit.sh"
find_kit
build find_rate
best=
for turn in 1 2 3 4 5; do
    from=$(date +%s%N)
    start find_rate >/dev/null
    to=$(date +%s%N)
    spent=$(((to - from) / 2000))
    if [ -z "$best" ] || [ "$spent" -lt "$best" ]; then best=$spent; fi
done
echo "find among 300 terms: $((best / 1000)).$((best / 100 % 10)) ns"
