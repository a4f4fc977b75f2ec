#!/bin/sh
# Hostile use: whatever comes in and wherever the output goes, there is a clear outcome and no hang.
. "$(dirname "$0")/common.sh"
bench=$root/bench
bare=$root/models/bare.model
full="refused 26 0"

# outcome NAME WANTED: what was printed is that one line
outcome() {
    printf '%s\n' "$2" >"$work/wanted"
    same "$1" "$work/wanted" "$work/got"
}
# words NAME PATTERN STATUS: the command said that on its error output and ended so
words() {
    if [ "$status" = "$3" ] && grep -q "$2" "$work/said"; then pass; else
        miss "$1 (status $status)"
        cat "$work/said"
    fi
}
limited() { timeout 60 "$@"; }

: >"$work/in"
limited "$bench" list <"$work/in" >"$work/got"
outcome "list: empty input" "refused 20 1"
limited "$bench" run <"$work/in" >"$work/got"
outcome "run: empty input" "refused 21 1"
limited "$bench" list <&- >"$work/got"
outcome "list: closed input" "refused 20 1"
limited "$bench" run <&- >"$work/got"
outcome "run: closed input" "refused 21 1"

dd if=/dev/urandom of="$work/in" bs=1000 count=20 2>/dev/null
for program in list run; do
    limited "$bench" "$program" "$work/in" >"$work/got"
    if [ "$(wc -l <"$work/got")" = 1 ] && grep -q '^refused 2[01] [0-9]*$' "$work/got"; then pass; else miss "$program: binary noise"; fi
done
dd if=/dev/zero of="$work/in" bs=1000000 count=10 2>/dev/null
for program in list run; do
    limited "$bench" "$program" "$work/in" >"$work/got"
    outcome "$program: 10 MB" "$full"
    cat "$work/in" "$bare" | limited "$bench" "$program" >"$work/got"
    outcome "$program: 10 MB through a pipe" "$full"
done

sed "s/\$/$(printf '\r')/" "$bare" >"$work/crlf"
printf 'G\t3\t1000\r\n' >>"$work/crlf"
limited "$bench" list "$work/crlf" >"$work/got"
outcome "list: CRLF" "refused 20 8"
limited "$bench" run "$work/crlf" >"$work/got"
outcome "run: CRLF" "refused 20 1"
{ cat "$bare"; printf 'G\t3\t1000'; } >"$work/in"
limited "$bench" list "$work/in" >"$work/got"
outcome "list: no last line end" "refused 20 8"
printf 'V\t1' >"$work/in"
limited "$bench" run "$work/in" >"$work/got"
outcome "run: no last line end" "refused 20 1"

# a listing of many lines into a pipe that is closed after the first, and on to a full disk
many=$root/models/tyre-signed.model
limited "$bench" list --bound 10 "$many" | head -n 1 >"$work/got"
if [ "$(wc -l <"$work/got")" = 1 ]; then pass; else miss "list: output into a closed pipe"; fi
if [ -w /dev/full ]; then
    limited "$bench" list --bound 3 "$bare" >/dev/full 2>"$work/said"
    status=$?
    words "list: output on a full disk" "could not be written" 1
    limited "$bench" run --codes 160,0 "$bare" >/dev/full 2>"$work/said"
    status=$?
    words "run: output on a full disk" "could not be written" 1
fi

# an input that cannot be read, as a folder, is no empty one
for program in list run; do
    limited "$bench" "$program" <"$work" >/dev/null 2>"$work/said"
    status=$?
    words "$program: a folder as input" "could not be read" 1
done

# wrong use of the command
wrong() {
    name=$1 pattern=$2
    shift 2
    limited "$bench" "$@" >/dev/null 2>"$work/said"
    status=$?
    words "$name" "$pattern" 2
}
wrong "no such command" "there is no 'lost'" lost
wrong "no such file" "there is no file" list "$work/none"
wrong "a folder" "is a folder" run "$work"
wrong "a bound too large" "from 1 to 24" list --bound 25 "$bare"
wrong "a bound of no number" "from 1 to 24" list --bound x "$bare"
wrong "a budget too large" "up to 4294967295" list --bound 3 --budget 4294967296 "$bare"
wrong "a code too large" "up to 65535" run --codes 65536 "$bare"
wrong "a code left out" "one comma each" run --codes 160,,0 "$bare"
wrong "no such option" "has no option" run --bound 3 "$bare"
wrong "two files" "one file at a time" list "$bare" "$bare"
printf 'V\t1' >"$work/in"
wrong "no line end to add to" "no line end" list --bound 3 "$work/in"
limited env PATH=/nowhere RATTLE_HOME= /bin/sh "$bench" list "$bare" >/dev/null 2>"$work/said"
status=$?
[ "$status" = 2 ] || [ "$status" = 127 ] || status=0
if [ "$status" != 0 ]; then pass; else miss "no kit"; fi
limited env RATTLE_HOME="$work" "$bench" list "$bare" >/dev/null 2>"$work/said"
status=$?
words "no kit in its folder" "no kit at" 2

# a file that lacks its G line, or has one where an option adds another, is refused, and it is said why
limited "$bench" list "$bare" >"$work/got" 2>"$work/said"
status=$?
outcome "list: no G line" "refused 20 8"
words "list: no G line, said" "give --bound" 0
{ cat "$bare"; printf 'G\t3\t1000\n'; } >"$work/in"
limited "$bench" list --bound 3 "$work/in" >"$work/got" 2>"$work/said"
status=$?
outcome "list: two G lines" "refused 20 8"
words "list: two G lines, said" "of its own" 0

# options add the lines that a bare model file lacks
limited "$bench" list --bound 3 --budget 1000 "$bare" >"$work/got"
same "list --bound --budget" "$root/models/bare.list" "$work/got"
limited "$bench" list --bound 3 -- "$bare" >"$work/got"
same "list --bound --" "$root/models/bare.list" "$work/got"
limited "$bench" list --bound 3 <"$bare" >"$work/got"
same "list --bound, standard input" "$root/models/bare.list" "$work/got"
limited "$bench" run --codes 160,0,12,0 "$bare" >"$work/got"
same "run --codes" "$root/models/bare.run" "$work/got"
verdict
