#!/usr/bin/env bash
# Generated plans, certified and verified from the command line; and certificates in which one byte was changed.
#
# Every certificate is also given to twire-verify, which has to write the same bytes and end with the same status.
source "$(dirname -- "$(readlink -f -- "${BASH_SOURCE[0]}")")/suite.bash" || exit 1

# verify PLAN CERT: what 'twire verify' writes, with its status, where twire-verify does the same, and else both. What they
# are to read as standard input stands in the file that `input` names.
input=/dev/null
verify() {
    local at=answers.$BASHPID status same
    "$twire" verify "$@" <"$input" >"$at.out" 2>"$at.err"
    status=$?
    "$verifier" "$@" <"$input" >"$at.same_out" 2>"$at.same_err"
    same=$?
    cat "$at.out" "$at.err"
    if ((same != status)) || ! cmp -s "$at.out" "$at.same_out" || ! cmp -s "$at.err" "$at.same_err"; then
        echo "twire-verify differs, with status $same:"
        cat "$at.same_out" "$at.same_err"
    fi
    rm -f "$at".*
    return "$status"
}

# verified PLAN CERT: the same, and the status.
verified() {
    local text
    text=$(verify "$@")
    echo "$text, status $?"
}

"$verifier" --version >/dev/null 2>&1

# Plans of two controllers with one or two messages each, and an interrupt, from a list of parts. A plan that is safe by
# 'check' has a certificate that is accepted as safe, and any other one that is accepted as unsafe.
RANDOM=1008
pick() {
    local -n from=$1
    picked=${from[RANDOM % ${#from[@]}]}
}
addresses=(1001000 1001001 10010x0 0110000)
bytes=(00000000 00000001 0000000x xxxxxxxx 1111000x)
counts=(1 2 1..2 2..4)
tails=(stop "again write 1001000 stop else stop" "again read 1001000 1 stop else stop")

message() {
    local address byte
    pick addresses && address=$picked
    case $((RANDOM % 4)) in
        0) pick tails && message="write $address $picked else stop" ;;
        1) pick bytes && byte=$picked && pick tails && message="write $address $byte $picked else stop else stop" ;;
        2) pick bytes && byte=$picked && pick tails && message="write $address $byte 00000001 stop else $picked else stop else stop" ;;
        3) pick counts && byte=$picked && pick tails && message="read $address $byte $picked else stop" ;;
    esac
}

for n in {1..120}; do
    {
        echo "plan 2"
        for name in m n o; do
            message
            echo "message $name $message ;"
        done
        echo "controller a m ;"
        echo "controller b n o ;"
        ((RANDOM % 2)) && echo "interrupt t 0110000 ;"
        ((RANDOM % 8)) || echo "never a b ;"
    } >plan
    last=$("$twire" check plan | tail -n 1)
    "$twire" certify plan >cert
    case $last in
        safe:*) same "generated plan $n" "accepted safe" "$(verify plan cert)" ;;
        unsafe:*) same "generated plan $n" "accepted unsafe" "$(verify plan cert)" ;;
        *) same "generated plan $n" "safe: or unsafe:" "$last" ;;
    esac
done

# The examples too.
for plan in "$examples"/*.plan; do
    "$twire" certify "$plan" >cert
    case $("$twire" check "$plan" | tail -n 1) in
        safe:*) same "example $(basename "$plan")" "accepted safe" "$(verify "$plan" cert)" ;;
        *) same "example $(basename "$plan")" "accepted unsafe" "$(verify "$plan" cert)" ;;
    esac
done

# One byte changed, at every place. changed NAME ACCEPTED: the plan stands in plan and the certificate in cert; ACCEPTED is
# the one answer that a changed certificate may have besides those that say that it is wrong, and the places of bits that
# are known and different in both bytes or headers.
changed() {
    local text at by size
    size=$(wc -c <cert)
    for ((at = 0; at < size; at++)); do
        for by in 0 3 7 8 B D P R S . ' ' $'\n'; do
            { head -c "$at" cert && printf '%s' "$by" && tail -c "+$((at + 2))" cert; } >other
            cmp -s cert other && continue
            text=$(verify plan other)
            if [[ $text == *differs* ]]; then
                same "$1 with '$by' at $at" "the same of both" "$text"
            elif [[ $text == accepted* ]]; then
                same "$1 with '$by' at $at" "$2" "$text at $(tail -n 1 other)"
            else
                same "$1 with '$by' at $at" "wrong" "${text%% *}"
            fi
        done
    done
}

write() {
    printf 'plan 1\nmessage m %s ;\nmessage n %s ;\ncontroller a m ;\ncontroller b n ;\n' "$1" "$2" >plan
    "$twire" certify plan >cert
}

# the headers differ in bit 6 alone, so no other place is one
write "write 1001000 stop else stop" "write 1001001 stop else stop"
changed "a split of two headers" "nothing"
# the bytes differ in bits 3 and 7
write "write 1001000 00000000 stop else stop else stop" "write 1001000 00010001 stop else stop else stop"
same "the first of two splits" "B P3 ." "$(tail -n 1 cert)"
changed "the first of two splits" "accepted safe at B P7 ."
# a fault
write "write 1001000 stop else stop" "write 1001000 0000000x stop else stop else stop"
changed "a fault" "nothing"

# A plan at every limit. Its last pair is that of the last two interrupts, whose addresses differ in bit 6 alone. The three
# certificates are verified side by side, since a trial build takes its time for 143,856 proofs.
"$top/tools/fullest_plan" >plan
"$twire" certify plan >cert
same "certify: the fullest plan" "0, lines 143858, last P6" "$?, lines $(wc -l <cert), last $(tail -n 1 cert)"
sed '$s/.*/P5/' cert >wrong
sed '$d' cert >short
for name in cert wrong short; do
    verified plan "$name" >"$name.answer" &
done
wait
same "verify: the fullest plan" "accepted safe, status 0" "$(cat cert.answer)"
same "verify: another last proof" "wrong C5 pair 143855, status 2" "$(cat wrong.answer)"
same "verify: no last proof" "wrong C2, status 2" "$(cat short.answer)"

# The longest wire of a fault. Two senders of headers alone go on together for 255 headers, and then one stops and the other
# has the last header that a message has room for: 255 times nine slots, and the repeated STARTs between them.
times() {
    local k text=
    for ((k = 0; k < $2; k++)); do
        text+=$1
    done
    echo "$text"
}
headers() {
    echo "write 1001000$(times ' again write 1001000' $(($1 - 1))) stop$(times ' else stop' "$1")"
}
write "$(headers 255)" "$(headers 256)"
wire="$(times 10010000lr 254)10010000l"
same "the longest wire has 2,549 slots" 2549 "${#wire}"
same "check: the longest wire" "pair 0 a/m b/n: stop against restart after $wire
unsafe: 1 of 1 pairs, status 1" "$(answer check plan)"
same "certify: the longest wire" "cert 1
fault 0 $wire stop restart" "$(cat cert)"
same "verify: the longest wire" "accepted unsafe, status 1" "$(verified plan cert)"
sed "2s/ stop/r10010000l stop/" cert >other
same "verify: a wire with one header more" "wrong C5 pair 0, status 2" "$(verified plan other)"

# ---- what twire-verify refuses, and its arguments

# small ARG..: what one call of twire-verify writes, and its status.
small() {
    local twire=$verifier
    answer "$@"
}

small_full() {
    local text
    text=$("$verifier" plan cert 2>&1 >/dev/full)
    echo "$text, status $?"
}

# (in a command substitution a closed standard input would become the pipe of that)
small_closed() {
    local status
    "$verifier" "$@" <&- >closed 2>&1
    status=$?
    echo "$(cat closed), status $status"
}

usage="usage: twire-verify PLAN CERT"
write "write 1001000 stop else stop" "write 1001001 stop else stop"
mkdir folder
: >empty
sed 's/$/\r/' cert >crlf
sed 's/$/\r/' plan >crlf_plan
printf 'brief 1\ndevice sensor 0x48 ;\nmessage m write sensor ;\ncontroller a m ;\n' >brief
same "verify: a safe plan" "accepted safe, status 0" "$(verified plan cert)"
same "verify: no such plan" "refused read, status 2" "$(verified missing cert)"
same "verify: no such certificate" "refused read, status 2" "$(verified plan missing)"
same "verify: a refused plan and no such certificate" "refused read, status 2" "$(verified empty missing)"
same "verify: a folder as a plan" "refused read, status 2" "$(verified folder cert)"
same "verify: a folder as a certificate" "refused read, status 2" "$(verified plan folder)"
same "verify: an empty plan" "refused P2 line 1, status 2" "$(verified empty cert)"
same "verify: an empty certificate" "wrong C1 line 1, status 2" "$(verified plan empty)"
same "verify: a certificate with other ends of lines" "wrong C1 line 1, status 2" "$(verified plan crlf)"
same "verify: the files the wrong way round" "refused P2 line 1, status 2" "$(verified cert plan)"
same "twire-verify: a brief" "refused P2 line 1, status 2" "$(small brief cert)"
for name in - /dev/stdin /dev/fd/0 /proc/self/fd/0; do
    input=plan
    same "verify: the plan by $name" "accepted safe, status 0" "$(verified "$name" cert)"
    input=cert
    same "verify: the certificate by $name" "accepted safe, status 0" "$(verified plan "$name")"
    same "twire-verify: standard input twice, as $name" "$usage, status 2" "$(small - "$name" <plan)"
    same "twire-verify: the plan by $name, closed" "refused read, status 2" "$(small_closed "$name" cert)"
    same "twire-verify: the certificate by $name, closed" "refused read, status 2" "$(small_closed plan "$name")"
done
input=/dev/null
for words in "" plan "plan cert cert" "--explain plan cert" "--" -V --hints; do
    same "twire-verify: the words '$words'" "$usage, status 2" "$(small $words)"
done
same "twire-verify: a word that is not UTF-8" "$usage, status 2" "$(small plan $'\xff')"
for word in -h --help; do
    same "twire-verify $word" "$usage, status 0" "$(small "$word")"
    same "twire-verify $word, on standard error" "" "$("$verifier" "$word" 2>&1 >/dev/null)"
done
version=$("$twire" --version)
found=$(small --version)
# (a program of the gate has no label)
label='(proved|trial), sources [0-9a-f]{12}|unknown build'
[[ $found =~ ^"twire-verify ${version:6:5} ("$label"), status 0"$ ]] && found=yes
same "twire-verify --version" yes "$found"
same "twire-verify --version, on standard error" "" "$("$verifier" --version 2>&1 >/dev/null)"
same "twire-verify: usage, on standard output" "" "$("$verifier" plan 2>/dev/null)"
same "twire-verify: a full device" "refused write, status 2" "$(small_full)"

# A certificate is judged as it comes: one that is larger than the memory there is. A trial build cannot run below any limit.
if { (ulimit -v 32768 && exec "$twire" --version); } >/dev/null 2>&1; then
    "$top/tools/widest_plan" 80 >plan
    "$twire" certify plan >cert
    same "a certificate of more than 32 MiB" yes "$( (($(stat -c %s cert) > 33554432)) && echo yes)"
    same "verify: that certificate with 32 MiB of memory" "accepted safe, status 0" "$(ulimit -v 32768 && answer verify plan cert)"
    same "twire-verify: the same" "accepted safe, status 0" "$(ulimit -v 32768 && small plan cert)"
else
    echo "left out: a certificate of more than 32 MiB with 32 MiB of memory (not the proved build)"
fi

finish
