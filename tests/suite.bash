# What the suites tests/*.sh have in common: how one begins, how a case is said, and how one ends. A suite begins with
#
#     source "$(dirname -- "$(readlink -f -- "${BASH_SOURCE[0]}")")/suite.bash" || exit 1
#
# and ends with `finish`: the last line is 'N passed, M failed', and the exit status is 1 where a case failed. A suite that is
# cut off before says so, and its exit status is not 0 either.
#
# A suite has
#
#     top, tests, examples    the repository, and these two folders of it
#     twire                   the program that TWIRE names, or the launcher at the top of the repository
#     verifier                the same of twire-verify, by TWIRE_VERIFY, or tools/twire-verify
#     work                    an empty folder, in which it stands. At the end it is removed, and what still runs is ended
#
# A case of a call gives its arguments and what it is to give: the status, and what is on standard output and on standard
# error, each without the LF at its end. Its standard input is that of the line.
#
#     expect NAME STATUS OUT ERR ARG..    one call
#     want STATUS OUT ERR                 what all calls after this are to give
#     want_of ARG..                       the same, by what this call gives
#     run NAME ARG..                      one of them
#     refuses NAME WORDS ARG..            a command line that is refused with 'error: WORDS', however it goes on
#     unwritten NAME ERR ARG..            one with status 2 whose standard output, that of the line, takes no report
#
# In parts: a call, what is done with what it gave, and the case.
#
#     call ARG..                          leaves what a call gives in the files out and err, and in status
#     compare NAME                        compares these with what is wanted
#     judge NAME STATUS OUT ERR           the same, with what is wanted
#     answer ARG..                        writes all that a call says, and its status, as in 'refused read, status 2'
#
# And cases of other kinds:
#
#     same NAME WANTED FOUND              two texts are the same
#     same_file NAME WANTED FOUND         two files have the same bytes
#     held NAME FILE..                    the command before this one succeeded; if it did not, these files are shown. (A
#                                         command in NAME itself would be the one before it)
#     count FILE                          the cases of another program, which wrote this file and ended it as a suite does
#     passes, fails NAME                  what a suite judges itself
#
# `lines FILE LINE..` writes a file. A suite in which something stands before the program, as a limit of time, has a function
# `called` of its own.
#
# tests/harness.sh shows each of them, and that it fails where it has to.
#
# shellcheck disable=SC2034
set -u

tests=$(dirname -- "$(readlink -f -- "${BASH_SOURCE[0]}")")
top=${tests%/*}
examples=$top/examples
passed=0
failed=0
ended=

# ---- the end

finish() {
    ended=yes
    echo "$passed passed, $failed failed"
    ((failed == 0))
    exit
}

# (a folder in which nothing may be written is not removed at once)
at_exit() {
    local told=$? job
    for job in $(jobs -p); do
        kill -KILL "$job"
        wait "$job"
    done 2>/dev/null
    cd /
    rm -rf -- "$work" 2>/dev/null || { chmod -R u+rwX -- "$work"; rm -rf -- "$work"; }
    [[ -z $ended ]] || return "$told"
    echo "FAILED: the suite is cut off, after $((passed + failed)) cases"
    exit $((told == 0 ? 1 : told))
}

# ---- a case that is counted

passes() {
    passed=$((passed + 1))
}

# (what is shown of the case follows)
fails() {
    failed=$((failed + 1))
    echo "FAILED: $1"
}

held() {
    if (($? == 0)); then
        passes
    else
        fails "$1"
        (($# == 1)) || head -n 40 -- "${@:2}"
    fi
}

same() {
    if [[ $2 == "$3" ]]; then
        passes
    else
        fails "$1: wanted"
        printf '%s\nfound\n%s\n' "$2" "$3"
    fi
}

same_file() {
    if cmp -s "$2" "$3"; then
        passes
    else
        fails "$1"
        diff -au "$2" "$3" | head -n 40
    fi
}

count() {
    local last
    last=$(tail -n 1 -- "$1")
    sed '$d' -- "$1"
    if [[ $last =~ ^([0-9]+)\ passed,\ ([0-9]+)\ failed$ ]]; then
        passed=$((passed + BASH_REMATCH[1]))
        failed=$((failed + BASH_REMATCH[2]))
    else
        fails "$last"
    fi
}

# ---- a call

called() {
    "$twire" "$@"
}

call() {
    called "$@" >out 2>err
    status=$?
}

# The texts are in files, so that they are compared byte by byte. (Each that is not empty has an LF at its end.)
want() {
    want_status=$1
    printf '%s' "${2:+$2$'\n'}" >want_out
    printf '%s' "${3:+$3$'\n'}" >want_err
}

want_of() {
    called "$@" >want_out 2>want_err
    want_status=$?
}

compare() {
    if [[ $status == "$want_status" ]] && cmp -s want_out out && cmp -s want_err err; then
        passes
        return
    fi
    fails "$1"
    [[ $status == "$want_status" ]] || echo "wanted status $want_status, found $status"
    diff -u --label "wanted output" --label output want_out out | head -n 40
    diff -u --label "wanted error" --label error want_err err | head -n 40
}

judge() {
    want "${@:2}"
    compare "$1"
}

run() {
    call "${@:2}"
    compare "$1"
}

expect() {
    call "${@:5}"
    judge "${@:1:4}"
}

refuses() {
    call "${@:3}"
    sed -i '2,$d' err
    judge "$1" 2 "" "error: $2"
}

# (what is shown cannot go to a closed standard output)
unwritten() {
    called "${@:3}" 2>err
    status=$?
    : >out
    judge "$1" 2 "" "$2" >&2
}

answer() {
    local text status
    text=$(called "$@" 2>&1)
    status=$?
    echo "${text:+$text, }status $status"
}

lines() {
    printf '%s\n' "${@:2}" >"$1"
}

# ---- the beginning

# (the first call may build the program, and says so; a suite that needs none has given `twire` a value)
verifier=$(readlink -f -- "${TWIRE_VERIFY:-$top/tools/twire-verify}")
work=$(mktemp -d) || exit 1
trap at_exit EXIT
if [[ ! -v twire ]]; then
    twire=$(readlink -f -- "${TWIRE:-$top/twire}")
    "$twire" check "$examples/two_writers.plan" >/dev/null 2>&1
fi
cd -- "$work" || exit 1
