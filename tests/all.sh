#!/bin/sh
# All tests: the kit's own verdict over every listed crate, then this repository's other checks. Its very last line is
# 'N passed, 0 failed', and its exit status 0, only if nothing was missed.
. "$(dirname "$0")/common.sh"
cd "$root" || exit 1

# counted WHAT COMMAND..: runs it, shows what it says as it comes, and adds the verdict that ends it
counted() {
    what=$1
    shift
    { "$@" 2>&1; echo $? >"$work/status"; } | tee "$work/log"
    read -r status <"$work/status"
    last=$(tail -n 1 "$work/log")
    case $last in
        *[0-9]' passed, '*[0-9]' failed')
            passed=$((passed + ${last%% *}))
            fails=${last#* passed, }
            failed=$((failed + ${fails%% *}))
            [ "$status" = 0 ] || [ "${fails%% *}" != 0 ] || miss "$what ended with status $status"
            ;;
        *) miss "$what gave no verdict" ;;
    esac
}

if ! command -v rt >/dev/null 2>&1; then
    echo "The Rattle kit is not here: put its command 'rt' on PATH, then run this again."
    miss "no kit"
    verdict
    exit 1
fi
# It also refuses what is not in rt fmt's layout. A bad edit shows nothing of a contract, and rt ci only notes it.
counted "rt ci" rt ci
if grep -q '^rt: ok;.*, [1-9][0-9]* bad' "$work/log"; then miss "rt ci names bad edits: mend them"; else pass; fi
# Programs that rt ci did not build are tried once here, not by each test that wants to start them.
here=$root
. "$root/kit.sh"
built=yes
for program in list run; do
    (find_kit && build "$program") || built=no
done
for part in promises shift vectors models reference hostile; do
    echo "== $part"
    case $built$part in
        nopromises | noshift | yes*) counted "$part" sh "tests/$part.sh" ;;
        *) miss "$part was not run: its programs are not built" ;;
    esac
done
verdict
