#!/usr/bin/env bash
# Runs the cases of tests/cases in every way that tests/README.md lists, and compares what twire says with the plain programs,
# on these cases and on 25,000 that are changed. It says how many runs each file had in each way. It also fails where cases or
# runs were lost: their numbers stand in tests/trials/expected.txt.
#
#     tests/trials.sh [CHANGED [SEED [SEVERAL [BOARDS]]]]
#
# says how many cases are changed, a tenth as many plans made up, from which seed, how many briefs are cut into files, and how
# many boards of the second version of briefs are made up.
#
# It runs the program crates/calls too, or the one that CALLS names. Memory can be refused where both programs are proved; of a
# trial build, which takes many times as long, it makes one run of forty. 'rt ci' makes crates/calls; where it is not there, or
# a source has changed since, it is proved and built first, in some minutes from nothing.
[[ -z ${CALLS:-} ]] || calls=$(readlink -f -- "$CALLS")
source "$(dirname -- "$(readlink -f -- "${BASH_SOURCE[0]}")")/suite.bash" || exit 1

crate=$top/crates/calls

# The files that a run reads are in memory where that is possible. No program is run from there, which may be forbidden.
desks=$work/desks
if [[ -d /dev/shm && -w /dev/shm ]]; then
    desks=$(mktemp -d /dev/shm/trials.XXXXXX)
    trap 'rm -rf -- "$desks"; at_exit' EXIT
fi

# fail WHY FILE..: the end, with the last lines of these files.
fail() {
    (($# == 1)) || tail -q -n 20 -- "${@:2}"
    fails "$1"
    finish
}

# Whether the program is there, and no source has changed since: by the time of the change itself, which no copy sets back.
is_current() {
    local changed
    changed=$(find "$top/crates.txt" "$top"/crates/*/src -cnewer "$crate/out/calls" -print -quit 2>/dev/null) &&
        [[ -x $crate/out/calls && -z $changed ]]
}

make_calls() {
    echo "trials: proving crates/calls, which takes some minutes from nothing" >&2
    # (with no arguments the program says how it is called, and ends with status 2)
    (cd -- "$crate" && rt run) </dev/null >log 2>&1
    is_current
}

if [[ -z ${CALLS:-} ]]; then
    is_current || make_calls || fail "crates/calls is not proved, or not built" log
    calls=$crate/out/calls
fi

# The launcher says by a line which program it is.
if [[ $twire -ef $top/twire ]]; then
    version=$("$twire" --version) || fail "the launcher has no program"
    [[ $version == *"(proved"* ]] && twire=$top/out/proved || twire=$top/out/trial
fi

rustc -O --edition 2021 -D warnings -o trials "$tests/trials/main.rs" >log 2>&1 || fail "the tester is not built" log
rustc -O --edition 2021 --test -A dead_code -o plain "$tests/trials/main.rs" >log 2>&1 ||
    fail "the tests of the plain programs are not built" log
gcc -O2 -Wall -Wextra -shared -fPIC -o devices.so "$tests/trials/devices.c" >log 2>&1 ||
    fail "the library that makes the devices is not built" log

./plain -q >log 2>&1 || fail "the plain programs do not agree with the definitions" log
echo "plain programs: $(sed -n 's/^test result: ok. \([0-9]*\) passed.*/\1/p' log) tests"

./trials "$twire" "$calls" "$work/devices.so" "$tests/cases" "$desks" "$@" </dev/null >out 2>err
status=$?
count out
cat err
tail -n 1 out | grep -q ' passed, ' || fail "the tester ended with status $status"

# How often memory is refused depends on how often the program asks, and is not compared.
if (($# == 0)) && ! grep -q '^this is a trial build' out; then
    sed '/refused allocation/d; $d' out | diff -u --label expected.txt --label found "$tests/trials/expected.txt" -
    held "other cases or runs than those of tests/trials/expected.txt"
fi

finish
