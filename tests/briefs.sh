#!/usr/bin/env bash
# Runs twire with briefs from the command line: what is expanded, what is written of a plan, and what is refused. It compares
# the exit status and all that is written.
source "$(dirname -- "$(readlink -f -- "${BASH_SOURCE[0]}")")/suite.bash" || exit 1

# ---- A brief and its plan.

cat >board.brief <<'END'
brief 1
device eeprom 0x50 ;  device fan 0x2F ;
byte pwm 0b0011000x ;                        # registers of the fan
message page   write eeprom 0xX0 any*2 ;
message get    write eeprom 0x1f read eeprom 1..16 ;
message level  write fan pwm any else (read fan 1) 0x01 ;
controller bmc page get ;
controller seq level ;
interrupt alert 0x0C ;
never bmc seq ;
END
plan="plan 2
message page write 1010000 xxxx0000 xxxxxxxx xxxxxxxx stop else stop else stop else stop else stop ;
message get write 1010000 00011111 again read 1010000 1..16 stop else stop else stop else stop ;
message level write 0101111 0011000x xxxxxxxx 00000001 stop else stop else again read 0101111 1 stop else stop else stop else stop ;
controller bmc page get ;
controller seq level ;
interrupt alert 0001100 ;
never bmc seq ;"
brief="brief 1
message page write 0x50 0xX0 any*2 ;
message get write 0x50 0x1F read 0x50 1..16 ;
message level write 0x2F 0b0011000x any else ( read 0x2F 1 ) 0x01 ;
controller bmc page get ;
controller seq level ;
interrupt alert 0x0C ;
never bmc seq ;"
printf '%s\n' "$plan" >board.plan
printf '%s\n' "$brief" >short.brief

want 0 "$plan" ""
run "a brief expanded" expand board.brief
run "a brief from standard input expanded" expand - <board.brief
run "a brief from /dev/stdin expanded" expand /dev/stdin <board.brief
run "a brief from a pipe expanded" expand - < <(cat board.brief)
mkfifo brief.fifo
cat board.brief >brief.fifo &
run "a brief from a FIFO expanded" expand brief.fifo
run "a brief after -- expanded" expand -- board.brief
run "a brief that was written by twire expanded" expand short.brief
run "what was expanded printed" print board.plan
want 0 "$brief" ""
run "a brief of a plan" brief board.plan
run "a brief of a plan from standard input" brief - <board.plan
run "a brief of a plan from a pipe" brief /dev/stdin < <(cat board.plan)

# Each form of an address and of a data byte.
want_plan() {
    lines this.brief "brief 1" "${@:3}"
    expect "$1" 0 "$2" "" expand this.brief
}

one() {
    want_plan "message: $1" "plan 1
message m $2 ;" "message m $1 ;"
}

one "write 0x00" "write 0000000 stop else stop"
one "write 0x7F" "write 1111111 stop else stop"
one "write 0x7f" "write 1111111 stop else stop"
one "write 0xX5" "write xxx0101 stop else stop"
one "write 0x5X" "write 101xxxx stop else stop"
one "write 0xXX" "write xxxxxxx stop else stop"
one "write 0b10x0011" "write 10x0011 stop else stop"
one "write 0x01 0x01" "write 0000001 00000001 stop else stop else stop"
one "write 0x01 0xA5" "write 0000001 10100101 stop else stop else stop"
one "write 0x01 0xa5" "write 0000001 10100101 stop else stop else stop"
one "write 0x01 0xX5" "write 0000001 xxxx0101 stop else stop else stop"
one "write 0x01 0x5X" "write 0000001 0101xxxx stop else stop else stop"
one "write 0x01 0b1x0x0011" "write 0000001 1x0x0011 stop else stop else stop"
one "write 0x01 any" "write 0000001 xxxxxxxx stop else stop else stop"
one "write 0x01 0x05*1" "write 0000001 00000101 stop else stop else stop"
one "write 0x01 0x05 * 003" "write 0000001 00000101 00000101 00000101 stop else stop else stop else stop else stop"
one "read 0x01 1" "read 0000001 1 stop else stop"
one "read 0x01 007" "read 0000001 7 stop else stop"

# Each rule of a message.
one "write 0x01 else stop" "write 0000001 stop else stop"
one "write 0x01 else (write 0x02)" "write 0000001 stop else again write 0000010 stop else stop"
one "write 0x01 else (read 0x02 3) 0x04" "write 0000001 00000100 stop else stop else again read 0000010 3 stop else stop"
one "write 0x01 0x04 else stop" "write 0000001 00000100 stop else stop else stop"
one "write 0x01 0x04 else (write 0x02) 0x05" "write 0000001 00000100 00000101 stop else stop else again write 0000010 stop else stop else stop"
one "write 0x01 0x04*2 else (write 0x02)" "write 0000001 00000100 00000100 stop else again write 0000010 stop else stop else again write 0000010 stop else stop else stop"
one "read 0x01 2 else stop" "read 0000001 2 stop else stop"
one "read 0x01 2 else (write 0x02)" "read 0000001 2 stop else again write 0000010 stop else stop"
one "read 0x01 2 else (write 0x02) write 0x03" "read 0000001 2 again write 0000011 stop else stop else again write 0000010 stop else stop"
one "write 0x01 write 0x02 read 0x03 4" "write 0000001 again write 0000010 again read 0000011 4 stop else stop else stop else stop"
one "write 0x01 else (write 0x02 read 0x03 4 else (read 0x05 6))" "write 0000001 stop else again write 0000010 again read 0000011 4 stop else again read 0000101 6 stop else stop else stop"

# Each kind of item, and names of separate kinds.
want_plan "no item" "plan 1"
want_plan "devices and bytes alone" "plan 1" "device d 0x10 ;" "byte d 0x10 ;"
want_plan "one name for each kind" "plan 1
message m write 0010000 00100000 stop else stop else stop ;
controller m m ;
interrupt m 0010000 ;" "device m 0x10 ;" "byte m 0x20 ;" "message m write m m ;" "controller m m ;" "interrupt m m ;"
want_plan "a controller with no message" "plan 1
controller c ;" "controller c ;"
want_plan "never" "plan 2
controller c ;
controller d ;
never d c ;" "controller c ;" "controller d ;" "never d c ;"
want_plan "a range" "plan 2
message m read 0000001 2..4 stop else stop ;" "message m read 0x01 02..4 ;"
want_plan "a range with equal ends" "plan 1
message m read 0000001 2 stop else stop ;" "message m read 0x01 2..2 ;"
want_plan "all on one line" "plan 1
message m write 0000001 00000010 00000010 stop else again read 0000011 4 stop else stop else stop else stop ;
controller c m ;" "byte b 0x02;message m write 0x01 b b else(read 0x03 4);controller c m;# a comment"
printf 'brief\t1\r\ncontroller\r\n\tc # ;\r\n;' >this.brief
want 0 "plan 1
controller c ;" ""
run "white space of each kind" expand this.brief

# ---- Refusals, with the line of the brief.

refused() {
    lines this.brief "${@:3}"
    expect "$1 line $2: ${*:3}" 2 "" "refused $1 line $2" expand this.brief
}

refused P1 2 "brief 1" "# caf$(printf '\303\251')"
refused P1 1 "brief 1 message m write$(printf '\303\251')"
refused P2 1 "plan 1"
refused P2 1 "brief 3"
refused P2 1 "brief 2."
refused P2 1 "brief 1."
refused P2 1 "brief 01"
refused P2 2 "brief"
refused P3 2 "brief 1" "again"
refused P3 2 "brief 1" "message m ;"
refused P3 2 "brief 1" "message m write ;"
refused P3 3 "brief 1" "message m write 0x01"
refused P3 2 "brief 1" "message m write 0x01 again read 0x01 2 ;"
refused P3 2 "brief 1" "message m write 0x01 stop ;"
refused P3 2 "brief 1" "message m write 0x01 else read 0x01 2 ;"
refused P3 2 "brief 1" "message m write 0x01 else () ;"
refused P3 2 "brief 1" "message m write 0x01 else (read 0x01 2 ;"
refused P3 2 "brief 1" "message m write 0x01 else (stop) ;"
refused P3 2 "brief 1" "message m write 0x01 else stop else stop ;"
refused P3 2 "brief 1" "message m read 0x01 2 0x03 ;"
refused P3 2 "brief 1" "message m read 0x01 else stop 2 ;"
refused P3 2 "brief 1" "message m write 0x80 ;"
refused P3 2 "brief 1" "message m write 0X01 ;"
refused P3 2 "brief 1" "message m write 0x1 ;"
refused P3 2 "brief 1" "message m write 0x001 ;"
refused P3 2 "brief 1" "message m write 0x5x ;"
refused P3 2 "brief 1" "message m write 0x0g ;"
refused P3 2 "brief 1" "message m write 0b00000001 ;"
refused P3 2 "brief 1" "message m write 0b000000X ;"
refused P3 2 "brief 1" "message m write 0000001 ;"
refused P3 2 "brief 1" "message m write any ;"
refused P3 2 "brief 1" "message m write 0x01 0b0000001 ;"
refused P3 2 "brief 1" "message m write 0x01 00000001 ;"
refused P3 2 "brief 1" "message m write 0x01 0x05*x ;"
refused P3 2 "brief 1" "message m write 0x01 0x05* ;"
refused P3 2 "brief 1" "message m write 0x01 *2 ;"
refused P3 2 "brief 1" "message m write 0x01 0x05*2.. ;"
refused P3 2 "brief 1" "message m read 0x01 any ;"
refused P3 2 "brief 1" "message m read 0x01 2.. ;"
refused P3 2 "brief 1" "device any 0x01 ;"
refused P3 2 "brief 1" "device plan 0x01 ;"
refused P3 2 "brief 1" "byte again 0x01 ;"
refused P3 2 "brief 1" "device d 0x01, 0x02 ;"
refused P3 2 "brief 1" "device d d ;"
refused P3 2 "brief 1" "byte b any ;"
refused P3 2 "brief 1" "controller m.n ;"
refused P3 2 "brief 1" "interrupt t 0x5X ;"
refused P3 3 "brief 1" "device d 0x5X ;" "interrupt t d ;"
refused P4 2 "brief 1" "message m read 0x01 0 ;"
refused P4 2 "brief 1" "message m read 0x01 256 ;"
refused P4 2 "brief 1" "message m read 0x01 3..2 ;"
refused P4 2 "brief 1" "message m write 0x01 0x05*0 ;"
refused P4 2 "brief 1" "message m write 0x01 0x05*256 ;"
refused P4 2 "brief 1" "message m write 0x01 0x05*99999999999999999999 ;"
refused P5 2 "brief 1" "message m write 0x01 any*255 any ;"
refused P5 4 "brief 1" "message m write 0x01 any" "*" "255 read 0x01 1 ;"
refused P5 2 "brief 1" "message m write 0x01 any*2 any*254 ;"
refused P5 2 "brief 1" "message m read 0x01 255 read 0x01 1 ;"
refused P5 2 "brief 1" "message m write 0x01 any*255 else (write 0x02 any*16) ;"
refused P6 258 "brief 1" "$(for k in {0..256}; do echo "message m$k write 0x01 ;"; done)"
refused P6 34 "brief 1" "$(for k in {1..33}; do echo "controller c$k ;"; done)"
refused P6 34 "brief 1" "$(for k in {1..33}; do echo "interrupt t$k 0x01 ;"; done)"
refused P7 3 "brief 1" "device d 0x01 ;" "device d 0x02 ;"
refused P7 3 "brief 1" "byte b 0x01 ;" "byte b 0x01 ;"
refused P7 3 "brief 1" "message m write 0x01 ;" "message m write 0x01 ;"
refused P7 3 "brief 1" "message m write 0x01 ;" "controller c m m ;"
refused P7 3 "brief 1" "controller c ;" "controller c ;"
refused P7 3 "brief 1" "interrupt t 0x01 ;" "interrupt t 0x01 ;"
refused P7 3 "brief 1" "controller c ;" "never c c ;"
refused P8 2 "brief 1" "message m write eeprom ;"
refused P8 3 "brief 1" "byte b 0x01 ;" "message m write b ;"
refused P8 2 "brief 1" "message m write 0x01 pwm ;"
refused P8 3 "brief 1" "device d 0x01 ;" "message m write d d ;"
refused P8 2 "brief 1" "interrupt t alert ;"
refused P8 2 "brief 1" "controller c m ;"
refused P8 2 "brief 1" "never c d ;"

# The longest path and the largest message, and one more.
want_plan "a path of 256 bytes" "plan 1
message m write 0000001$(printf ' xxxxxxxx%.0s' {1..255}) stop$(printf ' else stop%.0s' {1..256}) ;" "message m write 0x01 any*255 ;"
# A header, and 195 bytes with 20 headers after the refusal of each: 1 + 195 * 21 = 4,096.
twenty="($(printf ' write 0x02%.0s' {1..20}))"
after="$(printf ' again write 0000010%.0s' {1..20}) stop$(printf ' else stop%.0s' {1..20})"
full="message m write 0x01 0x03*195 else $twenty"
want_plan "a message of 4,096 nodes" "plan 1
message m write 0000001$(printf ' 00000011%.0s' {1..195}) stop$(for _ in {1..195}; do printf ' else%s' "$after"; done) else stop ;" "$full ;"
cp out full.plan
refused P5 3 "brief 1" "$full" "write 0x05 ;"
refused P5 4 "brief 1" "message m write 0x01 0x03*196" "else" "$twenty ;"
refused P5 4 "brief 1" "message m write 0x01 any any" "*" "255 ;"

# A header that follows each refusal of the one before it, as deep as the longest path, and one more; and one of each
# 100,000 times.
deep="message m$(printf ' write 0x01 else (%.0s' {1..255})"
closed="$(printf ' )%.0s' {1..255}) ;"
want_plan "256 headers, each after the refusal of the one before it" "plan 1
message m$(printf ' write 0000001 stop else again%.0s' {1..255}) write 0000001 stop else stop ;" "$deep write 0x01$closed"
cp out deep.plan
refused P5 4 "brief 1" "$deep" "write 0x01 else ( read" "0x01 4 )$closed"
refused P5 2 "brief 1" "message m$(printf ' write 0x01 else (%.0s' {1..100000})"
refused P3 3 "brief 1" "message m write 0x01 else (" "$(printf '(%.0s' {1..100000})"
refused P3 3 "brief 1" "message m write 0x01" "$(printf ')%.0s' {1..100000})"

# ---- Texts in the wrong place.

want 2 "" "refused P2 line 1"
run "a brief of a brief" brief board.brief
run "a plan expanded" expand board.plan
: >empty.brief
run "an empty brief" expand empty.brief
want 2 "" "refused P3 line 2"
lines refused.plan "plan 1" "message m write 1010000 stop ;"
run "a brief of a refused plan" brief refused.plan

# ---- Plans that have no brief.

for name in brief device byte any; do
    want 2 "" "refused brief name"
    lines named.plan "plan 1" "message $name write 0000001 stop else stop ;"
    run "a message of the name $name" brief named.plan
    lines named.plan "plan 1" "controller $name ;"
    run "a controller of the name $name" brief named.plan
    lines named.plan "plan 1" "interrupt $name 0000001 ;"
    run "an interrupt of the name $name" brief named.plan
done
want 0 "brief 1
controller Any ;
controller bytes ;
interrupt device_ 0x01 ;" ""
lines named.plan "plan 1" "controller Any ; controller bytes ; interrupt device_ 0000001 ;"
run "names that are nearly words of briefs" brief named.plan

# ---- Files and streams.

want 2 "" "refused read"
mkdir directory
run "a missing brief" expand missing.brief
run "a directory as a brief" expand directory
run "a brief from closed standard input" expand - <&-
run "a brief of a missing plan" brief missing.plan
run "a brief of a directory" brief directory
run "a brief of a plan from closed standard input" brief - <&-
for command in "expand board.brief" "brief board.plan"; do
    # shellcheck disable=SC2086
    unwritten "closed standard output: $command" "refused write" $command >&-
    if [[ -c /dev/full ]]; then
        # shellcheck disable=SC2086
        unwritten "full device: $command" "refused write" $command >/dev/full
    fi
done

# ---- Examples: a brief of a plan, expanded, is the plan in its canonical spelling.

for plan in "$examples"/*.plan full.plan deep.plan; do
    want 0 "$("$twire" print "$plan")" ""
    "$twire" brief "$plan" >this.brief
    run "a brief of $(basename "$plan"), expanded" expand this.brief
    cp out expanded.plan
    run "a brief of $(basename "$plan"), expanded and printed" print expanded.plan
    want 0 "$(cat this.brief)" ""
    run "a brief of the expanded brief of $(basename "$plan")" brief expanded.plan
done

# An example that stands as a brief beside its plan.
for brief in "$examples"/*.brief; do
    [[ -e $brief ]] || continue
    want 0 "$("$twire" print "${brief%.brief}.plan")" ""
    run "example $(basename "$brief")" expand "$brief"
done

# ---- A mebibyte of brief: 256 long messages, and devices, bytes and comments up to its size.
{
    echo "brief 1"
    for k in {0..9999}; do echo "device d$k 0x50 ; byte b$k 0b0011000x ; # the register of device $k on this board"; done
    for k in {0..255}; do echo "message m$k write d$k b$k any*16 else (read d$k 2) read d$k 1..16 ;"; done
    echo "controller c m0 m255 ;"
} >large.brief
"$twire" expand large.brief >large.plan 2>err
same "a large brief" "0 256" "$?$(<err) $(grep -c '^message m[0-9]* write 1010000 0011000x xxxxxxxx' large.plan)"

# ---- Hints.

lines here.brief "brief 1" "message m write 0x51 0x5 any ;"
want 2 "" "refused P3 line 2
hint: line 2 of the brief:
hint:   message m write 0x51 0x5 any ;
hint:                        ^^^
hint: expected here: a data byte ('0x' and two digits, or '0b' and eight of '0',
hint: '1' and 'x'), the name of one, 'any', 'else', 'write', 'read' or ';'"
run "hints on a brief" expand here.brief --hints always
run "hints on a brief from standard input" expand - --hints always <here.brief
want 2 "" "refused P3 line 2"
run "no hints on a brief" expand here.brief --hints never

# An address with its direction bit, as many data sheets print it.
lines eight.brief "brief 1" "message m write 0x91 0x05 ;"
want 2 "" "refused P3 line 2
hint: line 2 of the brief:
hint:   message m write 0x91 0x05 ;
hint:                   ^^^^
hint: an address has seven bits: 0x91 is 0x48 with its direction bit
hint: expected here: an address ('0x' and two digits, at most 0x7F, or '0b' and
hint: seven of '0', '1' and 'x') or the name of a device"
run "an address of eight bits in a brief" expand eight.brief --hints always
lines bits.brief "brief 1" "message m write 0b10100010 0x05 ;"
want 2 "" "refused P3 line 2
hint: line 2 of the brief:
hint:   message m write 0b10100010 0x05 ;
hint:                   ^^^^^^^^^^
hint: an address has seven bits: 0b10100010 is 0b1010001 with its direction bit
hint: expected here: an address ('0x' and two digits, at most 0x7F, or '0b' and
hint: seven of '0', '1' and 'x') or the name of a device"
run "an address of eight bits in a brief, in bits" expand bits.brief --hints always
want 2 "" "refused P2 line 1
hint: line 1 of the plan:
hint:   brief 1
hint:   ^^^^^
hint: a plan begins with 'plan 1', or with 'plan 2' where it has ranges of
hint: counts or 'never'
hint: this is a brief: 'twire expand' writes the plan that it means"
run "hints on a brief in the place of a plan" brief board.brief --hints always
want 2 "" "refused P2 line 1
hint: line 1 of the brief:
hint:   plan 2
hint:   ^^^^
hint: a brief begins with 'brief 1' or 'brief 2'
hint: this is a plan: commands that read a plan take it as it is"
run "hints on a plan in the place of a brief" expand board.plan --hints always
lines named.plan "plan 1" "controller byte ;"
want 2 "" "refused brief name
hint: the plan has the name 'byte', which is a word of briefs"
run "hints on a plan that has no brief" brief named.plan --hints always
run "hints on a plan from standard input that has no brief" brief - --hints always <named.plan
want 2 "" "refused read
hint: BRIEF, the brief \"missing.brief\", cannot be opened:
hint: No such file or directory (os error 2)"
run "hints on a missing brief" expand missing.brief --hints always

# ---- A brief in the place of a plan.

# as_plan NAME ARG..: the case gives what it gives where the words `ANY` are the plan; here they are the brief.
as_plan() {
    local words=("${@:2}")
    want_of "${words[@]/#ANY/any.plan}"
    run "$1" "${words[@]/#ANY/any.brief}"
}

for brief in "$examples"/*.brief; do
    name=$(basename -- "$brief" .brief)
    cp -- "$brief" any.brief
    "$twire" expand any.brief >any.plan
    "$twire" certify any.plan >any.cert
    as_plan "$name: check" check ANY
    as_plan "$name: certify" certify ANY
    as_plan "$name: verify" verify ANY any.cert
done
cp -- "$examples/shared_board.brief" any.brief
"$twire" expand any.brief >any.plan
"$twire" certify any.plan >any.cert
as_plan "check with explanations" check ANY --explain --hints always
as_plan "check with workers" check ANY --workers 3
as_plan "workers are looked at first" check ANY --workers 9
as_plan "verify with explanations" verify ANY any.cert --explain
as_plan "order" order ANY
as_plan "print" print ANY
as_plan "objects" check ANY --format json
as_plan "a capture" capture ANY "$examples/probe_icarus.vcd" --hints always
as_plan "a bench" bench ANY any.cert "$("$twire" order any.plan | sed -n '1s/^pair 0 \([^ ]*\) .*/\1/p')"
as_plan "starters that are refused" bench ANY any.cert nobody --hints always
as_plan "a bench that certifies" bench --certify ANY nobody --hints always
# (a page of a brief also says where messages stand)
"$twire" page any.plan | sed 's/any\.plan/any.brief/g' >page
want 0 "$(cat page)" ""
"$twire" page any.brief 2>err | sed 's/"place":"any\.brief:[0-9]*",//g' >out
status=${PIPESTATUS[0]}
compare "a page"

lines wrong.brief "brief 1" "device eeprom 0x50 ;" "device eeprom 0x51 ;"
want 2 "" "refused P7 line 3
hint: line 3 of the brief:
hint:   device eeprom 0x51 ;
hint:          ^^^^^^
hint: an earlier device has this name, on line 2"
run "a brief that is refused" check wrong.brief --hints always
lines wrong.brief "brief 3"
want 2 "" "refused P2 line 1
hint: line 1 of the brief:
hint:   brief 3
hint:         ^
hint: a brief begins with 'brief 1' or 'brief 2'"
run "a brief with a wrong head" check wrong.brief --hints always
lines wrong.brief "board 1"
want 2 "" "refused P2 line 1"
run "neither a plan nor a brief" check wrong.brief
want 2 "" "refused P2 line 1"
run "nothing at all" check - </dev/null
want 2 "" "refused P2 line 2
hint: line 2 of the plan:
hint:   brief 1
hint:   ^^^^^
hint: a plan begins with 'plan 1', or with 'plan 2' where it has ranges of
hint: counts or 'never'
hint: this is a brief: 'twire expand' writes the plan that it means"
{ echo "# a comment" && echo "brief 1"; } >wrong.brief
run "brief takes plans alone" brief wrong.brief --hints always

# ---- The second version. The codes are those of an independent program: F8 of B0 21 00 18, C8 and CF of 20 18 and 2C 04 01.

cat >power.brief <<'END'
# 12 V, 85 °C at most
brief 2
device psu 0x58 ; device bmc 0x10 ;  # "µ
message limit write psu 0x21 0x00 0x18 pec ;
message id    write bmc 0x18 sum wr(0x16) 0x04 0x01 sum ;
controller host limit ;
controller sp id ;
END
plan="plan 1
message limit write 1011000 00100001 00000000 00011000 11111000 stop else stop else stop else stop else stop else stop ;
message id write 0010000 00011000 11001000 00101100 00000100 00000001 11001111 stop else stop else stop else stop else stop else stop else stop else stop ;
controller host limit ;
controller sp id ;"
printf '%s\n' "$plan" >power.plan
want 0 "$plan" ""
run "a brief 2 expanded" expand power.brief
run "a brief 2 printed" print power.brief
run "a brief 2 from standard input expanded" expand - <power.brief
expect "a brief 2 checked" 0 "safe: 1 pairs" "" check power.brief
expect "the brief of its plan is a brief 1" 0 "brief 1
message limit write 0x58 0x21 0x00 0x18 0xF8 ;
message id write 0x10 0x18 0xC8 0x2C 0x04 0x01 0xCF ;
controller host limit ;
controller sp id ;" "" brief power.plan
expect "a brief 2 laid out" 0 "$(cat power.brief)" "" format power.brief
expect "its words laid out" 0 "brief 2
message m write 0x10 wr(0x16) rd(0x16) pec sum ;  # µ" "" format - <<<'brief 2
message m write 0x10 wr ( 0x16 )rd( 0x16) pec sum;# µ'
printf 'brief 1\ncontroller third limit ;\nnever third/limit host ;\n' >third.brief
expect "a brief 1 beside a brief 2" 0 "safe: 2 pairs" "" check power.brief --with third.brief
expect "a plan behind a brief 2" 2 "" "refused P2 line 1 of power.plan" expand power.brief power.plan
"$top/tools/dump" 101100000001000010000000000000110000111110000 >limit.vcd
expect "a code as it was recorded" 0 "$(printf '%s\n' "5-700 host/limit" "1 transactions, 0 unexplained")" "" capture power.brief limit.vcd
"$top/tools/dump" 101100000001000010000000000000110000111110010 >wrong.vcd
expect "a wrong code as it was recorded" 1 "$(printf '%s\n' "5-700 unexplained" "1 transactions, 1 unexplained")" "" \
    capture power.brief wrong.vcd
call learn wrong.vcd --names power.brief
[[ $status == 0 && $(head -n 1 out) == "brief 1" ]] && grep -q '^message .* write psu 0x21 0x00 0x18 0xf9 ;$' out
held "what is learned beside a brief 2 is a brief 1" out err
printf 'brief 2\ndevice idle 0x20 ;\ndevice psu 0x58 ;\nmessage m write 0x10 rd(psu) ;\ncontroller a m ;\n' >unused.brief
call check unused.brief --hints always
[[ $status == 0 ]] && grep -q 'unused.brief:2: ' err && ! grep -q 'unused.brief:3: ' err
held "a device that 'rd' names is used" out err

for word in with group extend but wr rd pec sum; do
    lines this.brief "brief 2" "controller $word ;"
    want 2 "" "refused P3 line 2
hint: line 2 of the brief:
hint:   controller $word ;
hint:              ${word//?/^}
hint: '$word' is a word of every 'brief 2', and cannot be a name there
hint: expected here: a name (a letter, then letters, digits and '_', 32 at most)"
    run "a name that is the word $word" check this.brief --hints always
    want_plan "in a brief 1 the name $word" "plan 1
controller $word ;" "controller $word ;"
done

# hinted ITEM WORDS: why hints say that an item on line 3 is refused.
hinted() {
    lines this.brief "brief 2" "device a 0x21 ;" "$1"
    call expand this.brief --hints always
    [[ $status == 2 ]] && grep -qF "hint: $2" err
    held "hints on: $1" err
}

second="a message has one choice or one range, and this would be its second"
but="'but' follows 'any' alone, and a message has one choice or one range"
hinted "message m write a 0x02..0x01 ;" "a span has the smaller byte first, and 'any but' leaves a byte"
hinted "message m write a any but 0x00..0xFF ;" "a span has the smaller byte first, and 'any but' leaves a byte"
hinted "message m write a 0x01..0x02 0x03..0x04 ;" "$second"
hinted "message m write a any*1..2 0x03..0x04 ;" "$second"
hinted "message m write a 0x01..0x02 any but 0x01 ;" "$but"
hinted "message m write a 0x01 but 0x02 ;" "$but"
hinted "message m write a 0x1..0x2 ;" "a span is two bytes in hex, as 0x02..0x0F"
hinted "message m write a any but 1..2 ;" "a span is two bytes in hex, as 0x02..0x0F"
hinted "message m write a any but 0x0X ;" "after 'any but' stands a byte without open bits, or a span of bytes"
hinted "byte b 0x01..0x02 ;" "a name stands for one byte: spans stand in messages"

# ---- Help.

want 0 "$(cat "$top/docs/help/expand.txt")" ""
run "help on expand" expand --help
run "help on expand as a subcommand" help expand
want 0 "$(cat "$top/docs/help/brief.txt")" ""
run "help on brief" brief --help

# The brief in the help is one.
sed -n '/^brief 1$/,/^$/p' "$top/docs/help/expand.txt" >help.brief
want 0 "plan 2
message page write 1010000 xxxx0000$(printf ' xxxxxxxx%.0s' {1..16}) stop$(printf ' else stop%.0s' {1..18}) ;
message get write 1010000 xxxxxxxx xxxxxxxx again read 1010000 1..16 stop else stop else stop else stop else stop ;
message level write 0101111 0011000x xxxxxxxx 00000001 stop else stop else again read 0101111 1 stop else stop else stop else stop ;
controller bmc page get ;
controller seq level ;
interrupt alert 0001100 ;
never bmc seq ;" ""
run "the brief in the help" expand help.brief

want 2 "" "error: the following required arguments were not provided:
  <BRIEF>...

Usage: twire expand <BRIEF>...

For more information, try '--help'."
run "no brief" expand

finish
