#!/usr/bin/env bash
# tests/suite.bash itself: that a case which fails is counted and shown, and gives the suite status 1; that a suite which is cut
# off never ends with status 0; and what is left of it.
twire=none
source "$(dirname -- "$(readlink -f -- "${BASH_SOURCE[0]}")")/suite.bash" || exit 1

# A program that says its arguments, or refuses them, also where standard output takes nothing.
cat >program <<'END_OF_PROGRAM'
#!/usr/bin/env bash
[[ ${1:-} != refuse ]] || { printf 'error: %s\nand more\n' "$2" >&2; exit 2; }
echo "$*" 2>/dev/null || { echo "refused write" >&2; exit 2; }
echo "to people" >&2
exit 3
END_OF_PROGRAM
chmod +x program

# suite LINE..: what a suite of these lines says, in the file said, and its status.
suite() {
    printf '%s\n' "source '$tests/suite.bash' || exit 1" 'echo one >one; echo one >alike; echo two >two' "$@" >suite.sh
    { TWIRE=$work/program bash suite.sh >said 2>&1; } 2>/dev/null
    status=$?
}

# told GOOD BAD: a case of the name n passes, and another one fails and is shown, each alone and before one that passes.
told() {
    suite "$1" finish
    same "it passes: $1" "0 1 passed, 0 failed" "$status $(<said)"
    suite "$2" 'same after 1 1' finish
    same "it fails: $2" "1 1 passed, 1 failed" "$status $(tail -n 1 said)"
    same "it is shown: $2" 1 "$(grep -c '^FAILED: n' said)"
}

told 'expect n 3 "a b" "to people" a b' 'expect n 2 "a b" "to people" a b'
told 'expect n 3 "a b" "to people" a b' 'expect n 3 "a  b" "to people" a b'
told 'expect n 3 "a b" "to people" a b' 'expect n 3 "a b" "" a b'
told 'want 3 x "to people"; run n x' 'want 3 x "to people"; run n y'
told 'want_of x; run n x' 'want_of x; run n y'
told 'call x; sed -i s/x/y/ out; judge n 3 y "to people"' 'call x; sed -i s/x/y/ out; judge n 3 x "to people"'
told 'refuses n why refuse why' 'refuses n why refuse "why not"'
told 'refuses n why refuse why' 'refuses n why x'
told 'unwritten n "refused write" x >&-' 'unwritten n "refused write" x >two'
told 'same n "a b" "$(echo a b)"' 'same n "a b" "a  b"'
told 'same_file n one alike' 'same_file n one two'
told 'same_file n one alike' 'same_file n one none'
told 'grep -q one one; held n two' 'grep -q one two; held n two'
told 'echo "1 passed, 0 failed" >c; count c' 'printf "FAILED: n\n0 passed, 1 failed\n" >c; count c'
told 'same n x "$(answer x | grep -o "^x$")"' 'echo "n is cut" >c; count c'

# A suite that does not come to its end: one that leaves, breaks off, or is ended.
for line in 'exit 0' 'exit 1' 'exit 7' true 'echo "$nothing"' 'kill "$$"; sleep 9' 'kill -INT "$$"; sleep 9'; do
    suite 'mkdir -p shut/in; chmod 555 shut; sleep 999 & echo "$work $!" >&2' 'same n 1 1' "$line"
    ((status != 0)) && ! tail -n 1 said | grep -q ' passed, '
    held "a suite that is cut off: $line" said
    read -r folder job <said
    [[ $folder == /* && ! -e $folder && ! -e /proc/$job/exe ]]
    held "what is left of it: $line" said
done
same "names that run a command, whose status would be that of the case" "" "$(grep -nE '^ *held "[^"]*\$\(' "$tests"/*.sh)"

finish
