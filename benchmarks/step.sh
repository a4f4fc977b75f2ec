#!/bin/sh
# Nanoseconds of one step tried from a configuration that stays: the program step_rate makes two million tries.
# Prints a line for each kind of step. Figures for people; no test goes by them.
set -eu
here=$(cd "$(dirname "$0")/.." && pwd -P)
. "$here/kit.sh"
find_kit
build step_rate
# best KIND: nanoseconds of a try, the best of five turns
best() {
    least=
    for turn in 1 2 3 4 5; do
        from=$(date +%s%N)
        printf %s "$1" | start step_rate >/dev/null
        to=$(date +%s%N)
        spent=$(((to - from) / 2000000))
        if [ -z "$least" ] || [ "$spent" -lt "$least" ]; then least=$spent; fi
    done
    echo "$least"
}
echo "a code that is refused: $(best 0) ns"
echo "a reset: $(best 1) ns"
echo "a new: $(best 2) ns"
echo "the hash of a pair of two variables: $(best 3) ns"
