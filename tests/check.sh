#!/usr/bin/env bash
# Runs twire from the command line, and compares the exit status and all that it writes.
source "$(dirname -- "$(readlink -f -- "${BASH_SOURCE[0]}")")/suite.bash" || exit 1

# What the launcher runs knows of which build it is, and the first digits of the hash of its sources; what the kit has just made
# does not.
call --version
build='(proved|trial), sources [0-9a-f]{12}'
[[ $twire -ef $top/twire ]] || build+='|unknown build'
sed -i -E "s/^(.*) \\(($build)\\)\$/\1/; t; s/\$/ of no build/" out
judge "version" 0 "twire 0.1.0" ""

# Plans.

header="write 1001000 stop else stop"
lines safe.plan "plan 1" "message m write 1010000 xxxxxxxx stop else stop else stop ;" "controller a m ;" "controller b m ;"
lines unsafe.plan "plan 1" "message m $header ;" "message n write 1001000 0000000x stop else stop else stop ;" "controller a m ;" "controller b n ;"
unsafe_report="pair 0 a/m b/n: stop against data after 10010000l
unsafe: 1 of 1 pairs"

want 0 "safe: 1 pairs" ""
run "safe plan" check safe.plan
run "safe plan with one worker" check --workers 1 safe.plan
run "safe plan with leading zeros in the number of workers" check safe.plan --workers 001
run "safe plan with seven workers, with leading zeros" check safe.plan --workers 007
run "safe plan with three workers, with a sign" check safe.plan --workers +3
run "safe plan with eight workers" check safe.plan --workers 8
run "safe plan from standard input" check /dev/stdin <safe.plan
run "safe plan after --" check -- safe.plan

want 1 "$unsafe_report" ""
run "unsafe plan" check unsafe.plan
run "unsafe plan with eight workers" check unsafe.plan --workers 8
run "unsafe plan from a pipe" check /dev/stdin < <(cat unsafe.plan)
mkfifo plan.fifo
cat unsafe.plan >plan.fifo &
run "unsafe plan from a FIFO" check plan.fifo

# Spellings.

lines spelled.plan "plan 1 # probe" "interrupt t 0101010;message m" "write 1010000 stop else stop ; controller a m ;"
spelling="plan 1
message m write 1010000 stop else stop ;
controller a m ;
interrupt t 0101010 ;"
want 0 "$spelling" ""
run "a plan printed" print spelled.plan
run "a plan from a pipe printed" print /dev/stdin < <(cat spelled.plan)
printf '%s\n' "$spelling" >printed.plan
run "a printed plan printed again" print printed.plan
lines refused.plan "plan 1" "message m write 1010000 stop ;"
want 2 "" "refused P3 line 2"
run "a refused plan printed" print refused.plan
want 2 "" "refused read"
run "no plan to print" print missing.plan

# Refused plans.

refused() {
    lines refused.plan "${@:3}"
    expect "$1 line $2: ${*:3}" 2 "" "refused $1 line $2" check refused.plan
}

refused P1 2 "plan 1" "# caf$(printf '\303\251')"
refused P2 1 "plan 3"
refused P2 2 "plan"
refused P3 2 "plan 1" "message m write again stop else stop ;"
refused P3 4 "plan 1" "message m" "# no frame"
refused P4 2 "plan 1" "message m read 1001000 256 stop else stop ;"
refused P5 2 "plan 1" "message m read 1001000 255 again $header else stop ;"
refused P6 34 "plan 1" "$(for k in {1..33}; do echo "controller c$k ;"; done)"
refused P7 3 "plan 1" "message m $header ;" "message m $header ;"
refused P8 2 "plan 1" "controller a q ;"

: >empty.plan
want 2 "" "refused P2 line 1"
run "empty plan" check empty.plan

# Files and workers.

want 2 "" "refused read"
run "missing file" check missing.plan
run "missing file before a number of workers" check missing.plan --workers 0
run "empty path" check ""
run "missing file whose name is that of an option" check -- --workers
mkdir directory
run "directory" check directory
run "closed standard input" check /dev/stdin <&-
run "closed standard input before a number of workers" check /dev/stdin --workers 0 <&-

want 2 "" "refused workers"
run "no worker" check safe.plan --workers 0
run "nine workers" check safe.plan --workers 9
run "no worker with a refused plan" check empty.plan --workers 0
run "no worker with a directory" check directory --workers 0
run "no worker with standard input" check /dev/stdin --workers 0 <safe.plan
run "no worker with a pipe" check /dev/stdin --workers 0 < <(cat safe.plan)

want 0 "safe: 1 pairs" ""
run "seven workers, with leading zeros" check safe.plan --workers 007
run "three workers, with a sign" check safe.plan --workers +3

# Any number of workers writes the same, also of a plan at every limit.
"$top/tools/fullest_plan" >fullest.plan
for workers in 1 2 3 4 5 6 7 8; do
    want 1 "$unsafe_report" ""
    run "unsafe plan by $workers workers" check unsafe.plan --workers "$workers"
    want 0 "safe: 143856 pairs" ""
    run "fullest plan by $workers workers" check fullest.plan --workers "$workers"
done

# And of a plan with one of something more.
"$top/tools/fullest_plan" 1 >over.plan
want 2 "" "refused P5 line 2"
run "one node more" check over.plan
"$top/tools/fullest_plan" 0 1 >over.plan
want 2 "" "refused P5 line 3"
run "one byte more on a path" check over.plan
sed '258i message more write 1001000 stop else stop ;' fullest.plan >over.plan
want 2 "" "refused P6 line 258"
run "one message more" check over.plan
sed '289s/;/m0 ;/' fullest.plan >over.plan
want 2 "" "refused P6 line 289"
run "one sending more" check over.plan

# Certificates.

safe_cert="cert 1
pairs 1
B B . . ."
unsafe_cert="cert 1
fault 0 10010000l stop data"
printf '%s\n' "$safe_cert" >safe.cert
printf '%s\n' "$unsafe_cert" >unsafe.cert

want 0 "$safe_cert" ""
run "certificate of a safe plan" certify safe.plan
run "certificate of a safe plan from standard input" certify /dev/stdin <safe.plan
want 1 "$unsafe_cert" ""
run "certificate of an unsafe plan" certify unsafe.plan
want 0 "accepted safe" ""
run "right proofs" verify safe.plan safe.cert
run "right proofs from standard input" verify safe.plan /dev/stdin <safe.cert
run "a plan from standard input, and right proofs" verify /dev/stdin safe.cert <safe.plan
want 1 "accepted unsafe" ""
run "right fault" verify unsafe.plan unsafe.cert
lines three.plan "plan 2" "message m write 1001000 11110000 stop else stop else stop ;" "message n write 1001000 11001111 stop else stop else stop ;" "message o write 1001000 1100xxxx stop else stop else stop ;" "controller a m ;" "controller b n ;" "controller c o ;" "never a c ;"
want 0 "cert 1
pairs 2
B P2 .
B B . . ." ""
run "certificate of a plan with controllers that never start together" certify three.plan
want 2 "wrong C5 pair 0" ""
run "proofs of another plan" verify unsafe.plan safe.cert
run "fault of another plan" verify safe.plan unsafe.cert
want 2 "wrong C1 line 1" ""
run "a plan in the place of the certificate" verify safe.plan safe.plan
want 2 "" "refused P2 line 1"
run "certificate of an empty plan" certify empty.plan
run "refused plan with a certificate" verify empty.plan safe.cert
run "refused plan with a directory" verify empty.plan directory
want 2 "" "refused read"
run "certify a missing file" certify missing.plan
run "refused plan with a missing certificate" verify empty.plan missing.cert
run "missing plan with a certificate" verify missing.plan safe.cert
run "plan with a directory" verify safe.plan directory

# Standard output that takes nothing.

for plan in safe.plan unsafe.plan; do
    unwritten "closed standard output: $plan" "refused write" check "$plan" >&-
done
unwritten "closed standard output: help" "refused write" --help >&-
if [[ -c /dev/full ]]; then
    unwritten "full device" "refused write" check unsafe.plan >/dev/full
fi

# A pipe that nobody reads any more.
mkfifo report.fifo
(
    exec 3<>report.fifo 4>report.fifo 3<&-
    exec "$twire" check unsafe.plan >&4 2>err
)
status=$?
: >out
judge "broken pipe" 2 "" "refused write"

# Memory that is refused: a limit that leaves room for the program, and not for the text. A trial build cannot run below
# any limit.
want 2 "" "refused memory"
if { (ulimit -v 32768 && exec "$twire" --version); } >/dev/null 2>&1; then
    (cat safe.plan && head -c 67108864 /dev/zero | tr '\0' '#') >long.plan
    (ulimit -v 32768 && exec "$twire" check long.plan) >out 2>err
    status=$?
    compare "a plan of 64 MiB with 32 MiB of memory"
else
    echo "left out: a plan of 64 MiB with 32 MiB of memory (not the proved build)"
fi

# Whoever has read enough of the help closes the pipe: that is no fault.
: >err
for k in {1..20}; do
    "$twire" help 2>>err | head -n 1 >out
    status=${PIPESTATUS[0]}
    ((status == 0)) || break
done
judge "the first line of the help alone" 0 "$(head -n 1 "$top/docs/help/twire.txt")" ""

# With a closed standard error the status is left.
"$twire" check missing.plan >out 2>&-
same "closed standard error" "2 " "$? $(<out)"

# Command lines.

cp "$top/docs/help/twire.txt" help.txt
want 0 "$(cat help.txt)" ""
run "help" --help
run "short help" -h
run "help as a subcommand" help
want 0 "$(cat "$top/docs/help/check.txt")" ""
run "help on check" check --help
run "help on check as a subcommand" help check
want 0 "$(cat "$top/docs/help/certify.txt")" ""
run "help on certify" certify --help
want 0 "$(cat "$top/docs/help/verify.txt")" ""
run "help on verify" verify --help
want 0 "$(cat "$top/docs/help/order.txt")" ""
run "help on order" order --help
want 0 "$(cat "$top/docs/help/print.txt")" ""
run "help on print" print --help
want 0 "$(cat "$top/docs/help/capture.txt")" ""
run "help on capture" capture --help
want 0 "$(cat "$top/docs/help/decode.txt")" ""
run "help on decode" decode --help
want 0 "$(cat "$top/docs/help/signals.txt")" ""
run "help on signals" signals --help
want 0 "$(cat "$top/docs/help/learn.txt")" ""
run "help on learn" learn --help
want 0 "$(cat "$top/docs/help/page.txt")" ""
run "help on page" page --help
want 2 "" "$(cat help.txt)"
run "no argument"

awk 'length > 80 { print FILENAME ": " $0 }' "$tests"/../docs/help/*.txt >out
status=0
: >err
want 0 "" ""
compare "help fits 80 columns"

want 2 "" "error: an argument is not UTF-8"
run "argument that is not UTF-8" check $'\xff.plan'

want 2 "" "error: unexpected argument '--bogus' found

  tip: to pass '--bogus' as a value, use '-- --bogus'

Usage: twire check [OPTIONS] <PLAN>

For more information, try '--help'."
run "unknown option" check --bogus safe.plan

want 2 "" "error: the following required arguments were not provided:
  <PLAN>

Usage: twire check <PLAN>

For more information, try '--help'."
run "no plan" check
run "no plan after --" check --

want 2 "" "error: the following required arguments were not provided:
  --wave <FILE>

Usage: twire check --wave <FILE> --pair <I> <PLAN>

For more information, try '--help'."
run "a pair that no wave shows" check safe.plan --pair 1

want 2 "" "error: unrecognized subcommand 'chek'

  tip: a similar subcommand exists: 'check'

Usage: twire [OPTIONS] <COMMAND>

For more information, try '--help'."
run "unknown subcommand" chek safe.plan

want 2 "" "error: invalid value '' for '--workers <N>': cannot parse integer from empty string

For more information, try '--help'."
run "empty number of workers" check safe.plan --workers ""

# Hints are further lines on standard error, after the line of a refusal. The option stands before or after the command.

lines again.plan "plan 1" "message m write again stop else stop ;"
want 2 "" "refused P3 line 2
hint: line 2 of the plan:
hint:   message m write again stop else stop ;
hint:                   ^^^^^
hint: expected here: an address (seven of '0', '1' and 'x')"
run "hints on a plan" check again.plan --hints always
run "hints before the command" --hints always check again.plan
run "hints by certify" certify again.plan --hints=always
run "hints by verify" verify --hints always again.plan safe.cert
lines eight.plan "plan 1" "message m write 10010000 00000001 stop else stop else stop ;"
want 2 "" "refused P3 line 2
hint: line 2 of the plan:
hint:   message m write 10010000 00000001 stop else stop else stop ;
hint:                   ^^^^^^^^
hint: an address has seven bits: 10010000 is 1001000 with its direction bit
hint: expected here: an address (seven of '0', '1' and 'x')"
run "an address of eight bits" check eight.plan --hints always
want 2 "" "refused P3 line 2
hint: line 2 of the plan:
hint:   message m write again stop else stop ;
hint:                   ^^^^^
hint: expected here: an address (seven of '0', '1' and 'x')"
run "hints on a plan from standard input" check /dev/stdin --hints always <again.plan
want 2 "" "refused P3 line 2"
run "hints never" check again.plan --hints never
run "hints never, before the command" --hints never check again.plan
run "hints never after the command, and always before it" --hints always check again.plan --hints never
run "hints where no terminal is" check again.plan --hints auto
run "no word on hints" check again.plan
want 0 "safe: 1 pairs" ""
run "no hints on a safe plan" check safe.plan --hints always
want 1 "$unsafe_report" ""
run "no hints on an unsafe plan" check unsafe.plan --hints always
want 2 "wrong C5 pair 0" "hint: the certificate does not prove the pairs of this plan: where the plan was
hint: changed, have it written again by 'twire certify PLAN -o CERT'"
run "hints on a certificate of another plan" verify unsafe.plan safe.cert --hints always
want 2 "wrong C1 line 3" "hint: line 3 of the certificate:
hint:   B B . .
hint:          ^
hint: the line ends before its proof does"
printf '%s\n' "cert 1" "pairs 1" "B B . ." >short.cert
run "hints on a proof that is too short" verify safe.plan short.cert --hints always
want 2 "wrong C1 line 1" "hint: the lines of this certificate end in CR LF, and are to end in LF alone
hint: have it written again by 'twire certify PLAN -o CERT'; git keeps its LF by
hint: this line in .gitattributes:
hint:   *.cert text eol=lf"
sed 's/$/\r/' safe.cert >returns.cert
run "hints on a certificate with CR LF" verify safe.plan returns.cert --hints always
want 2 "wrong C1 line 1
    a plan that was changed wants a new certificate: twire certify PLAN" "$(cat want_err)"
run "hints on a certificate with CR LF, explained" verify safe.plan returns.cert --explain --hints always
want 2 "wrong C1 line 1" "hint: the lines of this certificate end in CR LF, and are to end in LF alone
hint: have it written again by 'twire certify PLAN -o CERT'; git keeps its LF by
hint: this line in .gitattributes:
hint:   *.cert text eol=lf"
run "hints on a certificate from standard input" verify safe.plan - --hints always <returns.cert
want 2 "wrong C3 line 3" "hint: line 3 of the certificate:
hint:   .. S S S S S S S S S S S S S S S S S S S S S S S S S S S S S S S S S S .
hint:                                                                        ^
hint: this is more than 512 nodes deep in its proof"
printf '%s\n' "cert 1" "pairs 1" "$(printf 'S %.0s' {1..513})." >deep.cert
run "hints on a proof from standard input that is too deep" verify safe.plan - --hints always <deep.cert
want 2 "" "refused P2 line 1
hint: line 1 of the plan:
hint:   cert 1
hint:   ^^^^
hint: a plan begins with 'plan 1', or with 'plan 2' where it has ranges of
hint: counts or 'never'
hint: a brief begins with 'brief 1' or 'brief 2'
hint: this is a certificate: 'twire verify PLAN CERT' takes it after its plan"
run "hints on a certificate in the place of a plan" check safe.cert --hints always
gzip -c safe.plan >safe.plan.gz
want 2 "" "refused P3 line 1
hint: this file is compressed by gzip: unpack it first with 'gunzip'"
run "hints on a compressed plan" check safe.plan.gz --hints always
want 2 "wrong C1 line 1" "hint: this file is compressed by gzip: unpack it first with 'gunzip'"
run "hints on a compressed file in the place of a certificate" verify safe.plan safe.plan.gz --hints always

# What was not looked at is told of a safe plan.
lines spare.plan "plan 2" "message m $header ;" "message n $header ;" "controller a m ;" "controller b m ;" "never a b ;"
left_out="hint: messages that no controller lists, which were not looked at: 1: n
hint: 'never a b ;' leaves out pairs: 1
hint: the plan has no two participants that may start together: no pair was
hint: looked at"
want 0 "safe: 0 pairs" "$left_out"
run "hints on a safe plan of which nothing was looked at" check spare.plan --hints always
printf 'cert 1\npairs 0\n' >spare.cert
want 0 "accepted safe" "$left_out"
run "hints on a certificate of such a plan" verify spare.plan spare.cert --hints always
want 0 "safe: 0 pairs" "$left_out"
run "hints on a safe plan from standard input" check - --hints always <spare.plan
want 0 "safe: 0 pairs" ""
run "no word on hints on a safe plan" check spare.plan
# An explained report says it itself, and hints do not say it again.
not_checked="safe: 0 pairs
    where targets acknowledge, decided in the header: 0, later: 0,
    at a read's end: 0; may end together: 0
    no two participants may start together, so nothing was checked
    not checked: 1 message that no controller lists: n
    not checked: 1 of 1 pair, which 'never' keeps apart"
want 0 "$not_checked" ""
run "a safe plan of which nothing was looked at, explained" check --explain spare.plan --hints always
run "the same without pairs" check --summary spare.plan --hints always

# Of more than twenty unsafe pairs hints say how many groups they are, and how these are shown.
# crowd COUNT: so many writes, and three controllers of which each clashes with all of them.
crowd() {
    local k messages=() listed=
    for ((k = 1; k <= $1; k++)); do
        messages+=("message w$k write 1001000 0000000x stop else stop else stop ;")
        listed+=" w$k"
    done
    lines "many plans.plan" "plan 1" "message p write 1001000 stop else stop ;" "${messages[@]}" "controller a$listed ;" \
        "controller b p ;" "controller c p ;" "controller d p ;"
}
crowd 7
call check "many plans.plan" --hints always
sed -i '$!d' out
want 1 "unsafe: 21 of 24 pairs" 'hint: 21 unsafe pairs in 1 group; try
hint:   twire check --summary "many plans.plan"'
compare "hints on many unsafe pairs"
call check --explain "many plans.plan" --hints always
: >out
want 1 "" ""
compare "no hints on groups that are explained"
sed -i 's/ w7 ;/ ;/; s/^message p .*/& message q read 1001001 1 stop else stop ;/; s/^controller a/& q/' "many plans.plan"
call check "many plans.plan" --hints always
sed -i '$!d' out
want 1 "unsafe: 18 of 24 pairs" ""
compare "no hints on eighteen unsafe pairs"

# With --strict a safe plan is good where each message is in a controller, and where there is a pair.
want 0 "safe: 1 pairs" ""
run "a safe plan, strictly" check safe.plan --strict
run "a safe plan by two workers, strictly" check --strict safe.plan --workers 2
want 1 "$unsafe_report" ""
run "an unsafe plan, strictly" check --strict unsafe.plan
lines kept.plan "plan 2" "message m $header ;" "controller a m ;" "controller b m ;" "controller c m ;" "never a b ;"
want 0 "safe: 2 pairs" ""
run "pairs that never leaves out, strictly" check --strict kept.plan
run "as many as may be left out" check --strict --apart 1 kept.plan
want 1 "safe: 2 pairs" ""
run "more than may be left out" check kept.plan --apart 0 --strict
run "the same by two workers" check --strict --apart 0 kept.plan --workers 2
want 1 "safe: 2 pairs
    where targets acknowledge, decided in the header: 0, later: 0,
    at a read's end: 0; may end together: 2
    not checked: 1 of 3 pairs, which 'never' keeps apart" ""
run "the same, explained" check --strict --apart 0 --summary kept.plan
lines unlisted.plan "plan 1" "message n $header ;" "message m $header ;" "controller a m ;" "controller b m ;"
want 0 "safe: 1 pairs" ""
run "a message in no controller" check unlisted.plan
want 1 "safe: 1 pairs" ""
run "a message in no controller, strictly" check --strict unlisted.plan
run "the same from standard input" check --strict - <unlisted.plan
want 1 "safe: 1 pairs" "hint: messages that no controller lists, which were not looked at: 1: n"
run "the same with hints" check --strict unlisted.plan --hints always
want 1 "safe: 1 pairs
    where targets acknowledge, decided in the header: 0, later: 0,
    at a read's end: 0; may end together: 1
    not checked: 1 message that no controller lists: n" ""
run "the same, explained" check --strict --explain unlisted.plan --hints always
want 1 "$not_checked" ""
run "no pair, and a message in no controller, strictly and explained" check --strict --summary spare.plan
want 1 "safe: 0 pairs" ""
run "no pair, and a message in no controller, strictly" check --strict spare.plan
lines alone.plan "plan 1" "message m $header ;" "controller a m ;"
run "one controller, strictly" check --strict alone.plan
lines nothing.plan "plan 1"
run "no items, strictly" check --strict nothing.plan
lines asks.plan "plan 1" "message m $header ;" "controller a m ;" "interrupt t 1001001 ;"
want 0 "safe: 1 pairs" ""
run "one controller and an interrupt, strictly" check --strict asks.plan
want 2 "" "refused P2 line 1"
run "a refused plan, strictly" check --strict empty.plan

none="No such file or directory (os error 2)"
want 2 "" "refused read
hint: PLAN, the plan \"missing.plan\", cannot be opened:
hint: $none"
run "hints on a missing plan" check missing.plan --hints always
run "hints on a missing plan with a certificate" verify missing.plan safe.cert --hints always
want 2 "" "refused read
hint: CERT, the certificate \"missing.cert\", cannot be opened:
hint: $none"
run "hints on a missing certificate" verify safe.plan missing.cert --hints always
want 2 "" "refused read
hint: VCD, the capture \$'a\\nb.vcd', cannot be opened:
hint: $none"
run "hints on a missing capture whose name has a line feed" capture safe.plan $'a\nb.vcd' --hints always
want 2 "" "refused read
hint: CERT, the certificate \"directory\", cannot be read to its end:
hint: Is a directory (os error 21)"
run "hints on a directory in the place of a certificate" verify safe.plan directory --hints always
want 2 "" "refused read
hint: CERT, the certificate from standard input, cannot be read to its end:
hint: Is a directory (os error 21)"
run "hints on a directory in the place of standard input" verify safe.plan - --hints always <directory
want 2 "" "refused read
hint: PLAN, the plan, is to come from standard input, which is closed"
run "hints on closed standard input" check - --hints always <&-
want 2 "" "refused workers
hint: '--workers' takes 1 to 8"
run "hints on a number of workers" check safe.plan --workers 9 --hints always
if [[ -c /dev/full ]]; then
    unwritten "hints on a full device" "refused write
hint: standard output did not take the whole report:
hint: No space left on device (os error 28)" check safe.plan --hints always >/dev/full
fi

want 2 "" "error: invalid value 'x' for '--hints <WHEN>'
  [possible values: auto, always, never]

For more information, try '--help'."
run "a word on hints that is none" check safe.plan --hints x

# Each of these ends with status 2 and a message that is not compared.
for words in "--workers x" "--workers" "--workers=" "--workers -1" "--workers 4294967296" "--workers 1 --workers 1" "--hints" "--hints=" "--hints Always" "--hints auto --hints auto" "other.plan"; do
    want 2 "" ""
    # shellcheck disable=SC2086
    call check safe.plan $words
    grep -q '^error: ' err && : >err
    compare "command line: check safe.plan $words"
done

# The plan in the help has the fault that the help on check shows.
sed -n '/^  plan 1$/,/^$/s/^  //p' help.txt >help.plan
call check help.plan
sed -i '2,$d' out
want 1 "$(sed -n 's/^  \(pair 0 .*\)/\1/p' "$top/docs/help/check.txt")" ""
compare "the plan in the help"

# Each example says in its head how it is checked: a line '# twire check FILE (exit status N)', and below it the lines
# of the report, each after '#   '. A plan that twire wrote has no comments, and its brief says it.
head_of() {
    if grep -q '^# twire check ' "$1"; then
        echo "$1"
    else
        echo "${1%.plan}.brief"
    fi
}

for plan in "$examples"/*.plan; do
    head=$(head_of "$plan")
    status=$(sed -n 's/^# twire check .*(exit status \([0-2]\))$/\1/p' "$head")
    report=$(sed -n '/^# twire check /,/^\(#\)\{0,1\}$/s/^#   //p' "$head")
    want "$status" "$report" ""
    run "example $(basename "$plan")" check "$plan"
    for workers in 1 2 3 4 5 6 7 8; do
        run "example $(basename "$plan") by $workers workers" check "$plan" --workers "$workers"
    done
done

# The certificate of an example belongs to the plan of its name.
for cert in "$examples"/*.cert; do
    plan=${cert%.cert}.plan
    safe=$(sed -n 's/^# twire check .*(exit status \([0-2]\))$/\1/p' "$(head_of "$plan")")
    want "$safe" "$(cat "$cert")" ""
    run "certificate of example $(basename "$plan")" certify "$plan"
    want "$safe" "$([[ $safe == 0 ]] && echo "accepted safe" || echo "accepted unsafe")" ""
    run "example $(basename "$cert")" verify "$plan" "$cert"
done

finish
