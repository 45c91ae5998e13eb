#!/usr/bin/env bash
# Captures explained from the command line: what is written, the refusals, and the exit status.
source "$(dirname -- "$(readlink -f -- "${BASH_SOURCE[0]}")")/suite.bash" || exit 1

# capture NAME STATUS OUT ERR ARG..: one call of `twire capture`.
capture() {
    expect "${@:1:4}" capture "${@:5}"
}

cat >plan <<'PLAN'
plan 1
message m write 1001000 stop else stop ;
message n write 1001000 0000000x stop else stop else stop ;
controller a m ;
controller b n ;
PLAN
echo "plan 1 ;" >bad_plan

# dump NAME LINE..: the usual definitions, and these lines from line 8 on.
dump() {
    printf '%s\n' '$timescale' '1 us $end' '$scope module top $end' '$var wire 1 ! scl $end' '$var wire 1 " sda $end' \
        '$upscope $end' '$enddefinitions $end' "${@:2}" >"$1"
}

"$top/tools/dump" 100100000 >acknowledged
"$top/tools/dump" 100100001 >refused
"$top/tools/dump" 1001000000000000100000000 2 >bytes
"$top/tools/dump" 100100000 | sed 's/scl/clock_line/; s/sda/data_line/' >named
"$top/tools/dump" 100100000 | head -n 20 >cut

capture "acknowledged" 0 $'5-160 a/m\n1 transactions, 0 unexplained' "" plan acknowledged
capture "refused" 0 $'5-160 a/m b/n\n1 transactions, 0 unexplained' "" plan refused
capture "bytes that nobody sends" 1 $'5-400 unexplained\n405-800 unexplained\n2 transactions, 2 unexplained' "" plan bytes
capture "cut" 0 $'5- unfinished\n0 transactions, 0 unexplained' "" plan cut
capture "names by options" 0 $'5-160 a/m\n1 transactions, 0 unexplained' "" plan named --scl clock_line --sda data_line
capture "names that are not there" 2 "" "refused V1 scl" plan named
capture "one name that is not there" 2 "" "refused V1 sda" plan named --scl clock_line
capture "an empty name" 2 "" "refused V1 scl" plan named --scl ""

dump levels '#0 1! 1" #5 0" #7 x" #9 1" #12 0" #14 1"'
capture "a level that is unknown" 1 $'5-7 cut\n12-14 unexplained\n1 transactions, 1 unexplained' "" plan levels
dump back '#5 #4'
capture "a time that goes back" 2 "" "refused V3 line 8" plan back
dump stray '#5' '?'
capture "a token of no kind" 2 "" "refused V2 line 9" plan stray
dump open '#5' '$comment'
capture "an open comment" 2 "" "refused V4 line 9" plan open
: >empty
capture "an empty dump" 2 "" "refused V1 scl" plan empty

# Files are opened first, then the plan is read and judged, then the dump.
capture "no such dump" 2 "" "refused read" plan missing
capture "no such dump, and a plan that is refused" 2 "" "refused read" bad_plan missing
capture "a refused plan" 2 "" "refused P3 line 1" bad_plan stray
capture "a directory as the dump" 2 "" "refused read" plan /
capture "a refused plan, and a directory as the dump" 2 "" "refused P3 line 1" bad_plan /
capture "an example" 0 $'5-160 service/probe_10\n1 transactions, 0 unexplained' "" \
    "$examples/stop_meets_data.plan" "$examples/stop_meets_data.vcd"

# Examples of three programs. The times are those of the START and of the STOP in the file.
example=$examples/stop_meets_data.plan
capture "an example of sigrok" 0 $'10-115 service/probe_10\n1 transactions, 0 unexplained' "" \
    "$example" "$examples/probe_sigrok.vcd" --scl D0 --sda D1
capture "an example of sigrok, without its names" 2 "" "refused V1 scl" "$example" "$examples/probe_sigrok.vcd"
capture "an example of Icarus Verilog" 0 $'10-115 service/probe_11\n1 transactions, 0 unexplained' "" \
    "$example" "$examples/probe_icarus.vcd"
capture "an example of GHDL" 0 \
    $'15000000000-210000000000 main/write_output\n220000000000-250000000000 cut\n1 transactions, 0 unexplained' "" \
    "$example" "$examples/write_ghdl.vcd"
# Without its option for four states GHDL has 'U' where this has 'x' at first, on line 21.
sed '21s/x/U/' "$examples/write_ghdl.vcd" >nine_states
capture "nine states" 2 "" "refused V2 line 21" "$example" nine_states

# Hints are further lines on standard error. The report, the line of the refusal and the status stay.
hint() {
    printf 'hint: %s\n' "$@"
}
silent=$'0 transactions, 0 unexplained'
dump quiet '#0 1! 1" #5 0! #9 1!'

capture "hints on a missing signal" 2 "" "refused V1 scl
$(hint "no signal of one bit has the name 'scl', and none has the name 'sda'" \
    "these signals have one bit, the nearest names first:" "  libsigrok.D0" "  libsigrok.D1" \
    "give the names that the lines have in the file with --scl NAME --sda NAME" "two signals look like a bus; try" \
    "  twire capture $example $examples/probe_sigrok.vcd --scl D0 --sda D1")" \
    "$example" "$examples/probe_sigrok.vcd" --hints always
capture "hints on the other missing signal" 2 "" "refused V1 sda
$(hint "no signal of one bit has the name 'sda'" "these signals have one bit, the nearest names first:" \
    "  top.clk" "  top.data_line" "  top.clock_line" "give the name that the line has in the file with --sda NAME" \
    "two signals look like a bus; try" "  twire capture plan named --scl clock_line --sda data_line")" \
    plan named --scl clock_line --hints always
capture "hints on a token" 2 "" "refused V2 line 21
$(hint "line 21 of the capture:" "  U!" "  ^^" \
    "this is one of VHDL's nine states, and only '0', '1', 'x' and 'z' are" \
    "read: have the dump written with four states (GHDL: --vcd-4states)")" \
    "$example" nine_states --hints always
capture "hints on a time" 2 "" "refused V3 line 8
$(hint "line 8 of the capture:" "  #5 #4" "     ^^" "the last time was 5, and times never go back")" plan back --hints always
# A simulator that is killed leaves a part of its last time.
printf '%s' "$(cat back)" >broken
capture "hints on a dump that breaks off in its last time" 2 "" "refused V3 line 8
$(hint "line 8 of the capture:" "  #5 #4" "     ^^" "the last time was 5, and the dump ends with this one: it breaks off in its" \
    "last time, as where a simulator was killed" \
    "what came before is shown by 'twire decode --live', and by 'twire capture" "--live'")" plan broken --hints always
capture "the same on standard input" 2 "" "$(cat err)" plan - --hints always < <(cat broken)
capture "hints on what is open" 2 "" "refused V4 line 9
$(hint "line 9 of the capture:" '  $comment' "  ^^^^^^^^" \
    "this command goes on to the end of the file: its '\$end' is missing")" plan open --hints always
capture "hints on a refused plan" 2 "" "refused P3 line 1
$(hint "line 1 of the plan:" "  plan 1 ;" "         ^" "expected here: 'message', 'controller' or 'interrupt'")" \
    bad_plan stray --hints always
nothing_seen=$(hint "the capture has 3 samples of the two lines, and no START on a free bus" \
    "with the two names exchanged there would be transactions: 1" \
    "the names of the two lines are given with --scl NAME and --sda NAME")
capture "hints on a report without a transaction" 0 "$silent" "$nothing_seen" plan quiet --hints always
capture "hints on a summary without a transaction" 0 "a/m 0 alone, 0 with others
b/n 0 alone, 0 with others
unexplained 0
cut 0
unfinished 0
$silent" "$nothing_seen" plan quiet --summary --hints always
"$top/tools/dump" 100000000 >one_start
exchanged=$(hint "0 of the transactions have whole bytes; with the two lines exchanged 1" "would: are SCL and SDA exchanged?")
capture "hints on a report on exchanged lines of which none ended" 0 "25- unfinished
$silent" "$exchanged" plan one_start --scl sda --sda scl --hints always
capture "no hints on a report with a transaction" 0 $'5-160 a/m\n1 transactions, 0 unexplained' "" plan acknowledged --hints always
capture "no hints on one that goes on" 0 $'5- unfinished\n0 transactions, 0 unexplained' "" plan cut --hints always
# A dump that begins in the acknowledge of a header, and one that begins before a START but LOW.
within=$(hint "the capture begins in a transaction, which is left out: its START is not" "there")
dump begun '#0 0! 0" #5 1! #9 0! #12 1! #15 1"' '#20 0" #25 1"'
capture "hints on a dump that begins in a transaction" 1 $'20-25 unexplained\n1 transactions, 1 unexplained' "$within" \
    plan begun --hints always
head -n 8 begun >begun_alone
{ cat begun_alone; sed -n '/^#0/d; s/^#//p' acknowledged | awk '{ $1 = "#" $1 + 100; print }'; } >begun_whole
capture "the same before one that is explained" 0 $'105-260 a/m\n1 transactions, 0 unexplained' "$within" plan begun_whole --hints always
capture "the same where nothing follows" 0 "$silent" "$(hint "the capture has 5 samples of the two lines, and no START on a free bus" \
    "the bus is free at times, but SDA never falls there while SCL stays HIGH")
$within
$(hint "the names of the two lines are given with --scl NAME and --sda NAME")" plan begun_alone --hints always
dump risen '#0 0! 0" #3 1! #4 1"' '#20 0" #25 1"'
capture "no hints on lines that are LOW at first" 1 $'20-25 unexplained\n1 transactions, 1 unexplained' "" plan risen --hints always

# Bits after a STOP count as long as both levels are known.
dump following '#0 1! 1" #10 0" #11 1" #20 0! #30 1! #35 x! #36 1! #40 0! #45 1! #50 0!'
capture "bits that follow before a level is unknown" 1 '10-11 unexplained
    bus  S P
    a/m  S 48 Wr  next: a data bit
    b/n  S 48 Wr  next: a data bit
    slot 0, a/m: it sends 1, the bus has a STOP
    slot 0, b/n: it sends 1, the bus has a STOP
1 transactions, 1 unexplained' "" plan following --explain

capture "hints on a missing file" 2 "" "refused read"$'\n'"$(hint "VCD, the capture \"missing\", cannot be opened:" \
    "No such file or directory (os error 2)")" plan missing --hints always

capture "hints on a plan in the place of a capture" 2 "" "refused V2 line 1
$(hint "line 1 of the capture:" "  plan 1" "  ^^^^" \
    "before '\$enddefinitions \$end' only commands can stand, as '\$var wire 1 !" "scl \$end'" \
    "this is a plan: commands that read a plan take it as it is")" plan plan --hints always
zip_head=$'PK\003\004'
printf '%s' "$zip_head" >session.sr
capture "hints on a session of sigrok" 2 "" "refused V2 line 1
$(hint "this is a ZIP archive, as a session of sigrok is (.sr); a dump of one is" "written by" \
    "  sigrok-cli -i session.sr -O vcd > session.vcd")" plan session.sr --hints always

for when in never auto; do
    capture "hints $when: a token" 2 "" "refused V2 line 21" "$example" nine_states --hints "$when"
    capture "hints $when: a report without a transaction" 0 "$silent" "" plan quiet --hints "$when"
done
capture "no hints where nothing is said" 0 "$silent" "" plan quiet

# The reader knows the place of what it refuses, so a pipe has it too.
capture "hints on a pipe" 2 "" "refused V2 line 21
$(hint "line 21 of the capture:" "  U!" "  ^^" \
    "this is one of VHDL's nine states, and only '0', '1', 'x' and 'z' are" \
    "read: have the dump written with four states (GHDL: --vcd-4states)")" \
    "$example" /dev/stdin --hints always < <(cat nine_states)
mkfifo nine_states.fifo
cat nine_states >nine_states.fifo &
capture "hints on a FIFO" 2 "" "refused V2 line 21
$(hint "line 21 of the capture:" "  U!" "  ^^" \
    "this is one of VHDL's nine states, and only '0', '1', 'x' and 'z' are" \
    "read: have the dump written with four states (GHDL: --vcd-4states)")" \
    "$example" nine_states.fifo --hints always

# What has no end began further above, where a pipe cannot be read once more.
capture "hints on what has no end in a pipe" 2 "" "refused V4 line 9
$(hint "what begins on line 9 of the capture has no end: an '\$end' is missing, or" "the capture was cut short")" \
    plan <(cat open) --hints always
mkfifo named.fifo
cat named >named.fifo &
capture "hints on a missing signal of a FIFO" 2 "" "refused V1 sda
$(hint "no signal of one bit has the name 'sda'" "give the name that the line has in the file with --sda NAME" \
    "this lists the signals: twire signals named.fifo")" plan named.fifo --scl clock_line --hints always
capture "hints on a pipe without a transaction" 0 "$silent" \
    "$(hint "no START on a free bus was seen in the capture. The usual causes:" \
        "  the names are those of other signals: of several with one name the first" "  counts" \
        "  the two names are exchanged" \
        "  the two lines are never HIGH together, so the bus is never known to be" "  free" \
        "  a level is 'x' all the time")" plan <(cat quiet) --hints always

# What little was read of standard input can be read once more.
capture "hints on a missing signal of standard input" 2 "" "refused V1 sda
$(hint "no signal of one bit has the name 'sda'" "these signals have one bit, the nearest names first:" \
    "  top.clk" "  top.data_line" "  top.clock_line" "give the name that the line has in the file with --sda NAME" \
    "two signals look like a bus; try" "  twire capture plan - --scl clock_line --sda data_line")" \
    plan - --scl clock_line --hints always < <(cat named)
capture "hints on standard input without a transaction" 0 "$silent" \
    "$("$twire" capture plan quiet --hints always 2>&1 >/dev/null)" plan /dev/stdin --hints always < <(cat quiet)

# On a terminal hints are given where nothing is said, and standard output has the report alone.
if command -v script >/dev/null; then
    script -qec "'$twire' capture plan quiet 2>&1 >report" /dev/null </dev/null >terminal
    grep -q '^hint: the capture has 3 samples' terminal && [[ $(cat report) == "$silent" ]]
    held "hints on a terminal" terminal report
else
    echo "left out: hints on a terminal (no command 'script')"
fi

# The dump through a pipe, in two pieces.
(head -c 100 acknowledged; sleep 0.1; tail -c +101 acknowledged) | {
    found=$("$twire" capture plan /dev/stdin)
    [[ $found == $'5-160 a/m\n1 transactions, 0 unexplained' ]]
}
held "a dump from a pipe"

# ---- waves

# A fault: a STOP meets the bit 0 after the header 0010000 and its acknowledge. Slot k begins at 16 + 10 k; the last one, in
# which SCL stays HIGH, is the ninth.
"$twire" check "$example" --wave fault.vcd >/dev/null
awk 'BEGIN {
    print "$version twire $end\n$timescale 1 us $end\n$scope module bus $end"
    split("scl sda targets main/write_output service/probe_10 fault", name, " ")
    for (k = 1; k <= 6; k++) print "$var wire 1 " substr("!\"#$%&", k, 1) " " name[k] " $end"
    print "$upscope $end\n$enddefinitions $end\n#0\n1!\n1\"\n1#\n1$\n1%\n0&\n#10\n0$\n0%\n0\"\n#15\n0!"
    for (k = 0; k < 9; k++) {
        if (k == 2) print "#36\n1$\n1%\n1\""
        if (k == 3) print "#46\n0$\n0%\n0\""
        if (k == 8) print "#96\n0#\n1$\n1%"
        print "#" 20 + 10 * k "\n1!\n#" 25 + 10 * k "\n0!"
    }
    print "#106\n1&\n1#\n0$\n0%\n#110\n1!\n#115\n1%\n#116\n0&\n#126"
}' >fault_due
same_file "the waves of a fault" fault_due fault.vcd

# What sigrok decodes of a run: a byte that is written, a repeated START, and a read of two bytes, the last not acknowledged.
if command -v sigrok-cli >/dev/null; then
    printf 'brief 1\nmessage get write 0x48 0x01 read 0x48 2 ;\ncontroller a get ;\n' >get.brief
    "$twire" expand get.brief -o get.plan
    "$twire" bench get.plan a/get --certify --answers 000000000000000000000000000011000001 --rest 0 --wave run.vcd >/dev/null
    found=$(sigrok-cli -I vcd -i run.vcd -P i2c | sed -n 's/^i2c-1: \(..\)/\1/p' | tr '\n' ',')
    due='Start,Write,Address write: 48,ACK,Data write: 01,ACK,Start repeat,Read,Address read: 48,ACK,'
    due+='Data read: C1,ACK,Data read: 00,NACK,Stop,'
    same "waves as sigrok decodes them" "$due" "$found"
else
    echo "left out: waves as sigrok decodes them (no command 'sigrok-cli')"
fi

# A long dump: 72,000 transactions, of which every tenth is a header that is not acknowledged, and each other one a START and
# a STOP with nothing between. The report that is due is written beside it.
dump long
awk '
function at(changes) { print "#" time " " changes; time++ }
BEGIN {
    time = 0
    at("1! 1\"")
    for (n = 0; n < 72000; n++) {
        from = time
        at("0\"")
        who = "unexplained"
        if (n % 10 == 0) {
            at("0!")
            for (bit = 1; bit <= 9; bit++) { at(substr("100100001", bit, 1) "\""); at("1!"); at("0!") }
            at("0\""); at("1!")
            who = "a/m b/n"
        }
        at("1\"")
        print (from "-" (time - 1) " " who) >"due"
        counts[who]++
    }
    print (n " transactions, " counts["unexplained"] " unexplained") >"due"
}' >>long
capture "a long dump" 1 "$(cat due)" "" plan long

# A summary keeps counts alone. With less and less memory all is shown or memory is refused, and nothing is half written; at one
# limit at most the system may end the program before it has written anything. A trial build cannot run below any limit.
if { (ulimit -v 32768 && exec "$twire" --version); } >/dev/null 2>&1; then
    "$twire" capture plan long --summary >due
    # (the first limit with which the program begins at all, from which on the system has loaded its libraries)
    least=1000
    until { (ulimit -v "$least" && exec "$twire" --version); } >/dev/null 2>&1; do
        least=$((least + 100))
    done
    shown=0 refused=0 stackless=0 other=
    for ((limit = least; limit <= least + 20000; limit += 500)); do
        { (ulimit -v "$limit" && exec "$twire" capture plan long --summary --hints never) >report 2>err; } 2>/dev/null
        ended=$?
        if [[ ! -s err ]] && cmp -s report due; then
            shown=$((shown + 1))
        elif [[ ! -s report && $(cat err) == "refused memory" ]]; then
            refused=$((refused + 1))
        elif [[ ! -s report ]] && { [[ $ended -eq 139 && ! -s err ]] || [[ $(cat err) == "objects: a signal ended the program" ]]; }; then
            # (the system has no room for the stack to grow, which no program can answer. Right above the first limit that is so
            # within 48 KiB, and one of these limits may fall there)
            stackless=$((stackless + 1))
        else
            other="$limit KiB: $(tail -n 1 report) $(cat err)"
        fi
    done
    [[ $shown -gt 0 && $refused -gt 0 && $stackless -le 1 && -z $other ]]
    held "a report in part with less and less memory: $shown shown, $refused refused, $stackless without a stack, $other"
else
    echo "left out: a report in part with less and less memory (not the proved build)"
fi

finish
