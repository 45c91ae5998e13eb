#!/usr/bin/env bash
# Runs twire over boards whose files the heads of briefs name: which texts make one up, in which order, for each command, and what is
# refused. It compares the exit status and all that is written.
source "$(dirname -- "$(readlink -f -- "${BASH_SOURCE[0]}")")/suite.bash" || exit 1

# ---- A board in three files, with one team each.

lines devices.brief "brief 2" \
    "device eeprom 0x50 ;  device sensor 0x48 ;" \
    "byte settings 0x01 ;" \
    "message get write sensor settings read sensor 1 ;"
lines bmc.brief "brief 2" \
    "with \"devices.brief\" ;" \
    "message set write sensor settings any ;" \
    "controller bmc set get ;"
lines pch.brief "# 85 °C" "brief 2 with \"devices.brief\"; with # more" "\"bmc.brief\"" ";" \
    "message page write eeprom any any*1..2 ;" \
    "controller pch page get ;" \
    "never bmc/set pch/get ;"
lines board.brief "brief 2" "with \"devices.brief\" ;" "with \"bmc.brief\" ;  with \"pch.brief\" ;"
{
    echo "brief 2"
    tail -n +2 devices.brief
    tail -n +3 bmc.brief
    tail -n +5 pch.brief
} >whole.brief
plan="plan 2
message get write 1001000 00000001 again read 1001000 1 stop else stop else stop else stop ;
message set write 1001000 00000001 xxxxxxxx stop else stop else stop else stop ;
message page_1 write 1010000 xxxxxxxx xxxxxxxx stop else stop else stop else stop ;
message page_2 write 1010000 xxxxxxxx xxxxxxxx xxxxxxxx stop else stop else stop else stop else stop ;
controller bmc get ;
controller bmc_set set ;
controller pch page_1 page_2 ;
controller pch_get get ;
never bmc bmc_set ;
never pch pch_get ;
never bmc_set pch_get ;"

want 0 "$plan" ""
run "its items in one file" expand whole.brief
run "a board by its head" expand board.brief
run "a file that names what it uses" expand pch.brief
run "printed" print board.brief
run "standard input names files from the working folder" expand - <board.brief
run "the same by its path" expand /dev/stdin <pch.brief
run "from a pipe" expand - < <(cat board.brief)
run "an absolute path" expand "$PWD/board.brief"

mkdir -p sub/deep
ln -s ../board.brief sub/link.brief
lines sub/up.brief "brief 2" "with \"../board.brief\" ;"
lines sub/deep/up.brief "brief 2" "with \"../up.brief\" ;"
lines absolute.brief "brief 2" "with \"$PWD/sub/deep/up.brief\" ;"
run "from the folder of the text that names it" expand sub/up.brief
run "from folder to folder" expand sub/deep/up.brief
run "an absolute name" expand absolute.brief
(cd sub && "$twire" expand up.brief) >out 2>err
status=$?
judge "from another folder" 0 "$plan" ""

# ---- Each file once, by what it is.

run "what was given already" expand devices.brief board.brief
run "what is given after it was named" expand board.brief devices.brief
run "a board given twice" expand board.brief board.brief
run "by the option" expand board.brief --with pch.brief --with board.brief
run "the same by hand" expand devices.brief --with bmc.brief --with pch.brief
lines circle.brief "brief 2" "with \"round.brief\" ;" "with \"circle.brief\" ;"
lines round.brief "brief 2" "with \"circle.brief\" ;" "with \"board.brief\" ;"
run "a circle ends" expand circle.brief
ln devices.brief hard.brief
ln -s devices.brief soft.brief
lines names.brief "brief 2" "with \"devices.brief\" ;" "with \"./devices.brief\" ;" "with \"sub/../devices.brief\" ;" \
    "with \"hard.brief\" ; with \"soft.brief\" ; with \"$PWD/devices.brief\" ; with \"board.brief\" ;"
run "other paths of one file" expand names.brief
lines first.brief "brief 1" "device eeprom 0x50 ;"
lines mixed.brief "brief 2" "with \"first.brief\" ;" "message m write eeprom any ;"
expect "a brief of the first version is named" 0 "plan 1
message m write 1010000 xxxxxxxx stop else stop else stop ;" "" expand mixed.brief
expect "one of each version is given" 0 "plan 1
message m write 1010000 xxxxxxxx stop else stop else stop ;" "" expand first.brief mixed.brief
expect "twice, of the first version alone" 2 "" "refused P7 line 2 of first.brief" expand first.brief first.brief

# An order that a text gives goes before the order on the command line.
lines late.brief "brief 2" "message m write eeprom any ;"
lines early.brief "brief 2" "with \"first.brief\" ; with \"late.brief\" ;"
expect "what is named stands before what names it" 0 "plan 1
message m write 1010000 xxxxxxxx stop else stop else stop ;" "" expand early.brief late.brief
expect "what is given first uses nothing of what is given later" 2 "" "refused P8 line 2 of late.brief" \
    expand late.brief early.brief

# ---- Each command.

# alike NAME ARG..: 'PLAN' stands for the plan.
alike() {
    local name=$1
    shift
    want_of "${@/#PLAN/whole.brief}"
    run "$name: $want_status" "${@/#PLAN/board.brief}"
    [[ -s want_out ]] || fails "$name: nothing was written"
}

"$twire" certify whole.brief -o board.cert
"$top/tools/dump" 100100000 >board.vcd
alike check check PLAN
alike "check with threads" check PLAN --workers 2
alike certify certify PLAN
alike verify verify PLAN board.cert
alike order order PLAN
alike bench bench PLAN board.cert bmc/get,pch/page_1
alike "bench without a certificate" bench PLAN bmc/get,pch/page_1 --certify
alike capture capture PLAN board.vcd
alike print print PLAN
alike expand expand PLAN
want 0 "" ""
run "a page" page board.brief -o board.html
want 1 "" ""
run "a page with a capture that nobody explains" page board.brief --capture board.vcd -o board.html

# A file that was read is not written, also where a head names it.
expect "no file of the board is written" 2 "" "refused write" print board.brief -o devices.brief
same "that file" "brief 2" "$(head -1 devices.brief)"

# ---- What is laid out, and what is no board.

lines laid.brief "brief 2" "with   \"devices.brief\";with \"a  #b.brief\"  ;"
expect "format lays heads out" 0 "brief 2
with \"devices.brief\" ; with \"a  #b.brief\" ;" "" format laid.brief
expect "brief takes a plan text" 2 "" "refused P2 line 1" brief board.brief
expect "format looks at one text" 0 "brief 2
with \"none.brief\" ;" "" format - <<<'brief 2
with "none.brief" ;'

expect "what is learned beside a board" 0 "$("$twire" learn board.vcd --names whole.brief | sed s.whole.board.)" "" \
    learn board.vcd --names board.brief

# ---- Files that cannot be read.

lines none.brief "brief 2" "with \"sub/none\" oops"
want 2 "" "refused read"
run "no such file, before what follows its name" check none.brief
run "a folder" expand - <<<'brief 2 with "sub" ;'
run "the longest name" expand - <<<"brief 2 with \"$(printf "%0255d" 0)\" ;"
expect "which file, and where its name stands" 2 "" "refused read
hint: \"none.brief\" names \"sub/none\" on line 2, which cannot be read:
hint: No such file or directory (os error 2)" check none.brief --hints always
lines far.brief "brief 2" "with \"sub/far.brief\" ;"
lines sub/far.brief "brief 2" "" "with \"nothing\" ;"
expect "from the folder of the text that names it" 2 "" "refused read
hint: \"sub/far.brief\" names \"sub/nothing\" on line 3, which cannot be read:
hint: No such file or directory (os error 2)" check far.brief --hints always
want 2 "" "refused read"
lines slip.brief "brief 2" "message m write nobody ;"
lines both.brief "brief 2" "with \"slip.brief\" ;" "with \"nothing.brief\" ;"
run "before what is wrong with the items of another" check both.brief

# ---- Refusals.

expect "of a file that is named" 2 "" "refused P8 line 2 of slip.brief" expand - <<<'brief 2 with "slip.brief" ;'
lines bad.brief "brief 2" "with \"devices.brief\" ;" "message m write nobody ;"
expect "of one that names others" 2 "" "refused P8 line 3 of bad.brief" expand bad.brief
expect "of a board in one file" 2 "" "refused P8 line 2" expand slip.brief
lines self.brief "brief 2" "with \"self.brief\" ;" "message m write nobody ;"
expect "of a board that names itself alone" 2 "" "refused P8 line 3" expand self.brief
lines plain.plan "plan 1"
expect "a plan in the list" 2 "" "refused P2 line 1 of plain.plan" check - <<<'brief 2 with "plain.plan" ;'
expect "an empty text in the list" 2 "" "refused P2 line 1 of empty" check - < <(
    : >empty
    echo 'brief 2 with "empty" ;'
)
expect "a plan beside a board" 2 "" "refused P2 line 1 of plain.plan" check board.brief --with plain.plan
expect "spelled as it is named" 2 "" "refused P8 line 2 of sub/../slip.brief" check - <<<'brief 2 with "sub/../slip.brief" ;'
cp slip.brief ./-
expect "a file of the name of standard input" 2 "" "refused P8 line 2 of -" check - <<<'brief 2 with "-" ;'

# heads WORDS LINE: what follows `brief 2` on line 1, and then is refused so.
heads() {
    expect "$1" 2 "" "refused $2" check - <<<"brief 2 $1"
}
heads 'with ;' 'P3 line 1'
heads 'with devices.brief ;' 'P3 line 1'
heads 'with "" ;' 'P3 line 1'
heads "with \"$(printf '%0256d' 0)\" ;" 'P3 line 1'
heads 'with "devices.brief ;' 'P3 line 1'
heads 'with "a\b" ;' 'P3 line 1'
heads $'with "a\tb" ;' 'P3 line 1'
heads 'with "°" ;' 'P3 line 1'
heads 'with ° ;' 'P1 line 1'
heads 'with' 'P3 line 2'
heads $'with\n\n"devices.brief"\noops ;' 'P3 line 4 of -'
heads 'with "devices.brief"' 'P3 line 2 of -'
heads 'with "devices.brief" °' 'P1 line 1 of -'
heads 'with "devices.brief" "bmc.brief" ;' 'P3 line 1 of -'
heads '"devices.brief" ;' 'P3 line 1'
heads 'device a 0x10 ; with "devices.brief" ;' 'P3 line 1'
heads 'with "devices.brief" ; device a 0x10 ; with "bmc.brief" ;' 'P3 line 1 of -'
expect "in a brief of the first version" 2 "" "refused P3 line 2" check - <<<'brief 1
with "devices.brief" ;'

# ---- 64 texts.

: >many
for k in {1..64}; do
    lines "n$k" "brief 2" "device d$k 0x10 ;"
    echo "with \"n$k\" ;" >>many
done
lines at_most.brief "brief 2" "$(head -63 many)"
lines too_many.brief "brief 2" "$(cat many)"
lines again.brief "brief 2" "$(head -63 many)" "$(head -63 many)" "with \"again.brief\" ;"
expect "64 of them" 0 "plan 1" "" expand at_most.brief
expect "the 65th, at its name" 2 "" "refused P6 line 65 of too_many.brief" expand too_many.brief
expect "those that are passed over do not count" 0 "plan 1" "" expand again.brief
expect "those that are given do" 2 "" "refused P6 line 64 of at_most.brief" expand n64 at_most.brief
expect "one that is given is none too many" 0 "plan 1" "" expand at_most.brief n64
before=
for k in {1..64}; do
    lines "c$k" "brief 2" "$before" "device d$k 0x10 ;"
    before="with \"c$k\" ;"
done
lines c65 "brief 2" "$before"
expect "64 that lead to each other" 0 "plan 1" "" expand c64
expect "65 of them" 2 "" "refused P6 line 2 of c2" expand c65

# ---- Likely mistakes.

call check board.brief --format gcc
[[ $status == 0 ]] && ! grep -q 'no items' out err
held "a brief that only names files is not empty" out err
lines bare.brief "brief 2 # none"
call check board.brief --with bare.brief --format gcc
[[ $status == 0 ]] && grep -q 'bare.brief:1:1: warning: this brief has no items' out err
held "one that names none is" out err

# ---- Pipes.

mkfifo pipe
(cat devices.brief >pipe) &
expect "a pipe is named" 0 "$plan" "" expand - < <(
    echo 'brief 2 with "pipe" ;'
    tail -n +3 bmc.brief
    tail -n +5 pch.brief
)

# ---- The shelf of the examples.

shelf=$examples/shelf
expect "the shelf" 0 "safe: 1626 pairs" "" check "$shelf/board.brief" --strict
expect "the certificate of the shelf" 0 "accepted safe" "" verify "$shelf/board.brief" "$shelf/board.cert"
expect "the certificate is as it is written" 0 "$(cat "$shelf/board.cert")" "" certify "$shelf/board.brief"
for file in devices shmm_a shmm_b blade; do
    expect "a file of the shelf by itself: $file" 0 "safe: 0 pairs" "" check "$shelf/$file.brief"
done
expect "its supplies by themselves" 0 "safe: 3 pairs" "" check "$shelf/supplies.brief"

finish
