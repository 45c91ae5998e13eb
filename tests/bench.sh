#!/usr/bin/env bash
# Rehearsals from the command line: what is written, the refusals, and the exit status.
source "$(dirname -- "$(readlink -f -- "${BASH_SOURCE[0]}")")/suite.bash" || exit 1

# bench NAME STATUS OUT ERR ARG..: one call of `twire bench`.
bench() {
    expect "${@:1:4}" bench "${@:5}"
}

# fault NAME ARG..: a command line that is refused, with a message that is not compared.
fault() {
    call bench "${@:2}"
    [[ $status == 2 && ! -s out ]] && grep -q '^error: ' err
    held "$1" out err
}

# Three writers, whose second bytes differ.
three=("message m write 1001000 11110000 stop else stop else stop ;"
    "message n write 1001000 11001111 stop else stop else stop ;"
    "message o write 1001000 1100xxxx stop else stop else stop ;"
    "controller a m ;" "controller b n ;" "controller c o ;")
lines three.plan "plan 1" "${three[@]}"
printf '%s\n' "cert 1" "pairs 3" "B P2 ." "B P2 ." "B B . . ." >three.cert
acks=000000000000000000

bench "open bits sent as 1" 0 "wire 10010000l11001111ls
won b/n c/o" "" three.plan three.cert a/m,b/n,c/o --fill 1 --answers $acks
bench "open bits sent as 0" 0 "wire 10010000l11000000ls
won c/o" "" three.plan three.cert a/m,b/n,c/o --fill 0 --answers $acks
bench "open bits are 0 where nothing is said" 0 "wire 10010000l11000000ls
won c/o" "" three.plan three.cert a/m,b/n,c/o --answers $acks
bench "targets that do not answer" 0 "wire 10010000hs
won a/m b/n c/o" "" three.plan three.cert a/m,b/n,c/o
bench "an empty list of answers" 0 "wire 10010000hs
won a/m b/n c/o" "" three.plan three.cert a/m,b/n,c/o --answers ""
bench "an acknowledge of the header alone" 0 "wire 10010000l11001111hs
won c/o b/n" "" three.plan three.cert c/o,b/n,a/m --fill 1 --answers 000000000
bench "answers to slots that no target drives" 0 "wire 10010000hs
won a/m b/n c/o" "" three.plan three.cert a/m,b/n,c/o --answers 00000000111111111
bench "one starter" 0 "wire 10010000l11110000ls
won a/m" "" three.plan three.cert a/m --answers $acks
bench "a plan from standard input" 0 "wire 10010000hs
won a/m" "" /dev/stdin three.cert a/m <three.plan
bench "a certificate from standard input" 0 "wire 10010000hs
won a/m" "" three.plan /dev/stdin a/m <three.cert
bench "a certificate from a pipe" 0 "wire 10010000hs
won a/m" "" three.plan /dev/stdin a/m < <("$twire" certify three.plan)

# Starters that are refused.

bench "no starter" 2 "" "refused B1" three.plan three.cert ""
bench "an unknown starter" 2 "" "refused B2" three.plan three.cert a/q
bench "a number" 2 "" "refused B2" three.plan three.cert 0
bench "empty labels" 2 "" "refused B2" three.plan three.cert ,
bench "an empty label at the end" 2 "" "refused B2" three.plan three.cert a/m,
bench "a space in a label" 2 "" "refused B2" three.plan three.cert "a/m, b/n"
bench "one starter twice" 2 "" "refused B3" three.plan three.cert a/m,a/m
bench "the first refusal is told" 2 "" "refused B3" three.plan three.cert a/m,a/m,q
bench "an unknown starter before one twice" 2 "" "refused B2" three.plan three.cert a/m,q,a/m

# Controllers that never start together.
lines never.plan "plan 2" "message m write 1001000 stop else stop ;" \
    "message n write 1001000 0000000x stop else stop else stop ;" "controller a m ;" "controller b n ;" "never a b ;"
printf '%s\n' "cert 1" "pairs 0" >never.cert
bench "two that never start together" 2 "" "refused B8" never.plan never.cert a/m,b/n
bench "one of them" 0 "wire 10010000hs
won a/m" "" never.plan never.cert a/m

# Certificates that are not accepted: the starters are not looked at.
printf '%s\n' "cert 1" "pairs 3" "B P2 ." "B P1 ." "B B . . ." >wrong.cert
bench "a wrong certificate" 2 "wrong C5 pair 1" "" three.plan wrong.cert ""
bench "no certificate" 2 "wrong C1 line 1" "" three.plan three.plan a/m
bench "too few proofs" 2 "wrong C2" "" three.plan never.cert a/m
lines unsafe.plan "plan 1" "message m write 1001000 stop else stop ;" \
    "message n write 1001000 0000000x stop else stop else stop ;" "controller a m ;" "controller b n ;"
printf '%s\n' "cert 1" "fault 0 10010000l stop data" >unsafe.cert
bench "a fault of the plan" 1 "accepted unsafe" "" unsafe.plan unsafe.cert q
printf '%s\n' "plan 3" >refused.plan
bench "a refused plan" 2 "" "refused P2 line 1" refused.plan three.cert a/m
bench "a refused plan with a directory" 2 "" "refused P2 line 1" refused.plan . a/m
bench "a missing plan" 2 "" "refused read" missing.plan three.cert a/m
bench "a missing certificate" 2 "" "refused read" three.plan missing.cert a/m
bench "a missing certificate of a refused plan" 2 "" "refused read" refused.plan missing.cert a/m
bench "a directory as certificate" 2 "" "refused read" three.plan . a/m

# Reads of a range of counts: the acknowledge after which a read may end is an open bit, and 1 ends it.
lines range.plan "plan 2" "message m read 1001000 1..2 stop else stop ;" \
    "message n read 1001000 2 stop else stop ;" "controller a m ;" "controller b n ;"
printf '%s\n' "cert 1" "pairs 1" "D . ." >range.cert
bench "a read that ends early loses" 0 "wire 10010001lhhhhhhhh0hhhhhhhh1s
won b/n" "" range.plan range.cert a/m,b/n --fill 1 --answers 000000000
bench "a read that goes on" 0 "wire 10010001lhhhhhhhh0hhhhhhhh1s
won a/m b/n" "" range.plan range.cert a/m,b/n --fill 0 --answers 000000000
bench "a read that ends early, alone" 0 "wire 10010001lhhhhhhhh1s
won a/m" "" range.plan range.cert a/m --fill 1 --answers 000000000
bench "a read of bits that targets drive" 0 "wire 10010001lhlhlhlhl1s
won a/m" "" range.plan range.cert a/m --fill 1 --answers 00000000010101010

# Interrupts.
lines interrupt.plan "plan 1" "message m write 1001000 stop else stop ;" "controller a m ;" "interrupt t 1001000 ;"
printf '%s\n' "cert 1" "pairs 1" "P7" >interrupt.cert
bench "an interrupt that loses" 0 "wire 10010000hs
won a/m" "" interrupt.plan interrupt.cert "a/m,!t"
bench "an interrupt alone" 0 "wire 10010001c
won !t" "" interrupt.plan interrupt.cert "!t"

# What targets answer past the end of the answers.
bench "the rest of the answers" 0 "wire 10010000l11001111ls
won b/n c/o" "" three.plan three.cert a/m,b/n,c/o --fill 1 --rest 0
bench "the rest of the answers where it is said to be 1" 0 "wire 10010000hs
won a/m b/n c/o" "" three.plan three.cert a/m,b/n,c/o --rest 1
bench "answers, and then others" 0 "wire 10010000hs
won a/m b/n c/o" "" three.plan three.cert a/m,b/n,c/o --answers 000000001 --rest 0
bench "answers that end before the second byte" 0 "wire 10010000l11001111hs
won b/n c/o" "" three.plan three.cert a/m,b/n,c/o --fill 1 --answers 000000000 --rest 1

# A certificate that is made here.
bench "no certificate" 0 "wire 10010000l11001111ls
won b/n c/o" "" three.plan a/m,b/n,c/o --certify --fill 1 --answers $acks
bench "no certificate, the option first" 0 "wire 10010000hs
won a/m" "" --certify three.plan a/m
bench "no certificate, the plan from standard input" 0 "wire 10010000hs
won a/m" "" - a/m --certify <three.plan
lines unsafe.plan "plan 1" "message m write 1001000 stop else stop ;" \
    "message n write 1001000 00000000 stop else stop else stop ;" "controller a m ;" "controller b n ;"
bench "no certificate of an unsafe plan" 1 "accepted unsafe" "" unsafe.plan a/m,b/n --certify
bench "no certificate of a refused plan" 2 "" "refused P2 line 1" three.cert a/m --certify
bench "no certificate of a missing plan" 2 "" "refused read" missing.plan a/m --certify
bench "no certificate, and an unknown starter" 2 "" "refused B2" three.plan q --certify

# Hints on starters.
hint() {
    printf 'hint: %s\n' "$@"
}
labels=("  !t" "  a/m")
bench "hints on no starter" 2 "" "refused B1
$(hint "no starter is named: give labels, joined by commas" "labels of the plan:" "${labels[@]}")" \
    interrupt.plan interrupt.cert "" --hints always
bench "hints on an unknown starter" 2 "" "refused B2
$(hint "no participant of the plan has the label 'b/o'" "labels of the plan, the nearest first:" \
    "  b/n" "  c/o" "  a/m")" three.plan three.cert a/m,b/o --hints always
bench "hints on a starter that stands there twice" 2 "" "refused B3
$(hint "'a/m' stands there twice" "a controller starts one message at a time")" three.plan a/m,b/n,a/m --certify --hints always
lines never.plan "plan 2" "${three[@]}" "never c a ;"
bench "hints on starters that never start together" 2 "" "refused B8
$(hint "the plan has 'never c a ;': these two never start together")" never.plan a/m,b/n,c/o --certify --hints always
bench "hints on an unknown starter of a plan from standard input" 2 "" "refused B2
$(hint "no participant of the plan has the label 'b/o'" "labels of the plan, the nearest first:" \
    "  b/n" "  c/o" "  a/m")" - three.cert a/m,b/o --hints always <three.plan
bench "hints on a 'never' of a plan from standard input" 2 "" "refused B8
$(hint "the plan has 'never c a ;': these two never start together")" \
    - a/m,b/n,c/o --certify --hints always <never.plan
bench "hints on a certificate of another plan" 2 "wrong C2" \
    "$(hint "the certificate does not prove the pairs of this plan: where the plan was" \
        "changed, have it written again by 'twire certify PLAN -o CERT'")" never.plan three.cert a/m --hints always

# The bus is one without targets, unless more is said.
silent=$(hint "nothing was acknowledged, as on a bus without targets: '--rest 0'" \
    "acknowledges each byte, and '--answers' has a bit for each slot")
bench "hints on a bus without targets" 0 "wire 10010000hs
won a/m" "$silent" three.plan three.cert a/m --hints always
bench "hints on a bit for the first slot alone" 0 "wire 10010000hs
won a/m" "$silent" three.plan three.cert a/m --answers 0 --hints always
bench "no hints where something is acknowledged" 0 "wire 10010000l11110000ls
won a/m" "" three.plan three.cert a/m --rest 0 --hints always

# Command lines.
fault "a rest that is no bit" three.plan three.cert a/m --rest l
fault "a certificate beside --certify" three.plan three.cert a/m --certify
fault "no starters beside --certify" three.plan --certify
grep -q '<STARTERS> is missing' err
held "what is missing" err
fault "standard input twice" - - a/m
fault "a fill that is no bit" three.plan three.cert a/m --fill 2
fault "a fill of two bits" three.plan three.cert a/m --fill 01
fault "an empty fill" three.plan three.cert a/m --fill ""
fault "answers that are no bits" three.plan three.cert a/m --answers 0120
fault "answers with a space" three.plan three.cert a/m --answers "0 0"
fault "a fault of the command line before a missing file" missing.plan three.cert a/m --answers l
fault "fill twice" three.plan three.cert a/m --fill 0 --fill 0
fault "no starters" three.plan three.cert
fault "the plan alone" three.plan
fault "no plan"
fault "a word too many" three.plan three.cert a/m b/n

# Help.
bench "help on bench" 0 "$(cat "$top/docs/help/bench.txt")" "" --help

# The example, of which the header and two bytes are acknowledged: at bit 6 of the second byte main sends a 1.
bench "the example" 0 "wire 10010000l00000001l00100000ls
won guard/write_alarm" "" "$examples/two_writers.plan" "$examples/two_writers.cert" main/write_limit,guard/write_alarm --answers 000000000000000000000000000

# What the help shows is what the program writes.
read -ra words < <(sed -n '/^  twire bench /{N;s/\n//;s/^  twire bench //;p}' "$top/docs/help/bench.txt")
bench "the example of the help" 0 "$(sed -n 's/^  \(wire [^ ]*\) .*/\1/p; s/^  \(won [^ ]*\) .*/\1/p' "$top/docs/help/bench.txt")" "" \
    "$top/${words[0]}" "${words[@]:1}"

# As many starters as there may be, and the longest run. 32 controllers send 256 headers, all acknowledged; 32 interrupts lose
# to them in bit 1.
times() {
    local k text=
    for ((k = 0; k < $2; k++)); do
        text+=$1
    done
    echo "$text"
}
longest="write 1001000$(times ' again write 1001000' 255) stop$(times ' else stop' 256)"
lines longest.plan "plan 1" "message m $longest ;"
starters=
for ((k = 0; k < 32; k++)); do
    echo "controller c$k m ;" >>longest.plan
    starters+="c$k/m "
done
winners=${starters% }
for ((k = 0; k < 32; k++)); do
    echo "interrupt t$k 11$((k / 16 % 2))$((k / 8 % 2))$((k / 4 % 2))$((k / 2 % 2))$((k % 2)) ;" >>longest.plan
    starters+="!t$k "
done
starters=${starters% }
"$twire" certify longest.plan >longest.cert
wire="$(times 10010000lr 255)10010000ls"
bench "all starters, and the longest run" 0 "wire $wire
won $winners" "" longest.plan longest.cert "${starters// /,}" --answers "$(times 0 2560)"

# A hundred rehearsals write the same, whatever the schedule of the threads.
for _ in {1..100}; do
    bench "one of many" 0 "wire 10010000l11001111ls
won b/n c/o" "" three.plan three.cert a/m,b/n,c/o --fill 1 --answers $acks
done

finish
