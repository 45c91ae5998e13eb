#!/usr/bin/env bash
# Files that twire writes: each is there whole or not at all, and a run that ends without its report leaves what was there.
source "$(dirname -- "$(readlink -f -- "${BASH_SOURCE[0]}")")/suite.bash" || exit 1


# right NAME: a case, which passes where nothing stands in the file wrong and in the folder nothing that was not there.
right() {
    ls -A | grep -E '\.part$' >>wrong
    [[ ! -s wrong ]]
    held "$1" wrong
    : >wrong
}

# ran STATUS ERR ARG..: a run with this status and this on standard error, which writes no report on standard output.
ran() {
    call "${@:3}"
    [[ $status == "$1" ]] || echo "${*:3}: status $status" >>wrong
    [[ $(cat err) == "$2" ]] || { echo "${*:3}: on standard error" && cat err; } >>wrong
    [[ ! -s out ]] || { echo "${*:3}: on standard output" && cat out; } >>wrong
}

# has FILE TEXT: the file has this text and no more.
has() {
    [[ -f $1 && $(cat "$1") == "$2" ]] || echo "$1: $(cat "$1" 2>&1)" >>wrong
}

: >wrong

plan="plan 1
message m write 1001000 stop else stop ;
message n write 1001001 stop else stop ;
controller a m ;
controller b n ;"
cert="cert 1
pairs 1
P6"
brief="brief 1
message m write 0x48 ;
message n write 0x49 ;
controller a m ;
controller b n ;"
unsafe_cert="cert 1
fault 0 10010000l stop data"
echo "$plan" >plan
echo "$brief" >brief
echo "plan 1 ;" >refused
sed 's/write 1001001/write 1001000 00000000 stop else/' plan >unsafe

ran 0 "" certify plan -o new.cert
has new.cert "$cert"
right "a certificate in a new file"
ran 0 "" certify plan --output=long.cert
has long.cert "$cert"
right "a certificate by the long option"
ran 1 "" certify unsafe -o new.cert
has new.cert "$unsafe_cert"
right "the certificate of an unsafe plan in the place of an old one"
ran 0 "" expand brief -o new.plan
has new.plan "$plan"
right "a plan of a brief"
ran 0 "" print plan -o printed
has printed "$plan"
right "a canonical spelling"
ran 0 "" brief plan -o new.brief
has new.brief "$brief"
right "a brief of a plan"
ran 0 "" certify - -o input.cert <plan
has input.cert "$cert"
right "a certificate of a plan from standard input"

# What is refused leaves the old file.
echo "kept" >kept
ran 2 "refused P3 line 1" certify refused -o kept
has kept "kept"
right "certify of a refused plan"
ran 2 "refused P2 line 1" expand refused -o kept
has kept "kept"
right "expand of a refused brief"
ran 2 "refused P3 line 1" print refused -o kept
has kept "kept"
right "print of a refused plan"
ran 2 "refused read" certify missing -o kept
has kept "kept"
right "certify of a missing plan"
ran 2 "refused P3 line 1" certify refused -o never_written
[[ ! -e never_written ]] || echo "the file is there" >>wrong
right "no file of a refused plan"

# The file that was read is not written over, by whatever name.
ln -s plan link
ln plan other_name
for name in plan ./plan link other_name "$work/plan"; do
    ran 2 "refused write
hint: the output \"$name\" was not written:
hint: it is a file that was read" certify plan -o "$name" --hints always
    has plan "$plan"
    right "the plan itself as the certificate, by the name ${name##*/}"
done
ran 2 "refused write" certify - -o plan <plan
has plan "$plan"
right "the plan from standard input as the certificate"
"$twire" certify plan -o /dev/fd/1 >&- 2>err
[[ $? == 2 ]] || echo "another status" >>wrong
has plan "$plan"
right "a closed descriptor that the plan comes to have"
ran 2 "refused write" certify plan -o /dev/fd/9 9>&-
right "a closed descriptor"
rm link other_name

# A file that is read as standard input is not written over either, by whatever name of the two.
cp unsafe unsafe_kept && cp new.cert cert_kept && ln unsafe hard_link
for input in - /dev/stdin /dev/fd/0 /proc/self/fd/0; do
    for name in unsafe hard_link; do
        "$twire" check "$input" --wave "$name" --hints always <unsafe >out 2>err
        [[ $? == 2 ]] || echo "another status" >>wrong
        has err "refused write
hint: the output \"$name\" was not written:
hint: it is a file that was read"
        has unsafe "$(cat unsafe_kept)"
        has hard_link "$(cat unsafe_kept)"
        right "waves over the plan, $name, that is read as $input"
    done
done
"$twire" certify plan -o plan.cert
"$twire" bench plan - a/m,b/n --wave plan.cert <plan.cert >out 2>err
[[ $? == 2 && $(cat err) == "refused write" ]] || cat err >>wrong
has plan.cert "$cert"
right "waves over the certificate from standard input"
"$twire" bench - plan.cert a/m,b/n --wave plan <plan >out 2>err
[[ $? == 2 && $(cat err) == "refused write" ]] || cat err >>wrong
has plan "$plan"
right "waves of a bench over the plan from standard input"
"$top/tools/dump" 100100000 >read.vcd
cp read.vcd dump_kept
for command in "page plan --capture - -o read.vcd" "learn - -o read.vcd" "page plan --capture read.vcd -o read.vcd"; do
    ran 2 "refused write" $command <read.vcd
    has read.vcd "$(cat dump_kept)"
    right "$command, over the capture"
done
cp plan appended
"$twire" check appended >>appended 2>err
[[ $? == 2 && $(cat err) == "refused write" ]] || cat err >>wrong
has appended "$plan"
"$twire" check appended --format json 1<>appended 2>err
[[ $? == 2 ]] || echo "another status" >>wrong
has appended "$plan"
right "standard output that is the plan"
rm unsafe_kept cert_kept hard_link read.vcd dump_kept appended plan.cert

# Where the file cannot be written.
mkdir folder
for name in folder folder/ missing/new.cert plan/new.cert "" /; do
    ran 2 "refused write" certify plan -o "$name"
    right "a certificate in the place of '$name'"
done
[[ -z $(ls -A folder) ]] || echo "something is left in the folder" >>wrong
right "nothing is left in the folder"
# The waves of a check and of a rehearsal: a file that cannot be written is named, and no file that was read is written over.
# drew STATUS HINT ARG..: a run with this status, of whose hints these are the first two lines after that of a refusal.
drew() {
    call "${@:3}" --hints always
    [[ $status == "$1" ]] || echo "${*:3}: status $status" >>wrong
    [[ $(head -n 3 err) == "refused write
$2" ]] || { echo "${*:3}: on standard error" && cat err; } >>wrong
}

"$twire" certify plan -o plan.cert
cp unsafe unsafe_kept && cp plan.cert cert_kept
for name in folder missing/w.vcd; do
    "$twire" check unsafe --wave "$name" --hints always >out 2>err
    [[ $? == 2 ]] || echo "another status" >>wrong
    [[ $(head -n 2 err) == "refused write
hint: the output \"$name\" was not written:" ]] || cat err >>wrong
    right "waves in the place of '$name'"
done
drew 2 'hint: the output "unsafe" was not written:
hint: it is a file that was read' check unsafe --wave unsafe
has unsafe "$(cat unsafe_kept)"
right "waves over the plan"
drew 2 'hint: the output "plan.cert" was not written:
hint: it is a file that was read' bench plan plan.cert a/m,b/n --wave plan.cert
has plan.cert "$(cat cert_kept)"
right "waves over the certificate"
"$twire" check unsafe --wave - >out 2>err
[[ $? == 2 && ! -e ./- ]] || echo "another status, or a file -" >>wrong
grep -q "'--wave' wants a file" err || cat err >>wrong
right "waves on standard output"
rm -f plan.cert cert_kept unsafe_kept

if [[ -c /dev/full ]]; then
    ran 2 "refused write
hint: the output \"/dev/full\" was not written:
hint: No space left on device (os error 28)" certify plan -o /dev/full --hints always
    right "a full device"
fi
(
    ulimit -f 0
    trap '' XFSZ
    "$twire" certify plan -o kept >out 2>err
    echo "$?" >&3
) 3>&1 >/dev/null 2>&1 | grep -qx 2 || echo "another status" >>wrong
has kept "kept"
right "a file that may not have a byte"

# What stands there already.
ran 0 "" certify plan -o /dev/null
[[ -c /dev/null ]] || echo "it is no device any more" >>wrong
right "the null device stays one"
mkfifo fifo
cat fifo >through &
ran 0 "" certify plan -o fifo
wait
has through "$cert"
[[ -p fifo ]] || echo "it is no FIFO any more" >>wrong
right "a FIFO takes the certificate and stays one"
echo "old" >folder/old.cert
ln -s folder/old.cert link.cert
ran 0 "" certify plan -o link.cert
has folder/old.cert "$cert"
[[ -L link.cert ]] || echo "it is no link any more" >>wrong
right "a link stays one, and its file is replaced"
ln -s folder/made.cert dangling.cert
ran 0 "" certify plan -o dangling.cert
has folder/made.cert "$cert"
[[ $(readlink dangling.cert) == folder/made.cert ]] || echo "it is no link any more" >>wrong
right "a link to nothing stays one, and its file is made"
ln -s ../chained.cert folder/second.link && ln -s folder/second.link first.link
ran 0 "" certify plan -o first.link
has chained.cert "$cert"
[[ -L first.link && -L folder/second.link ]] || echo "they are no links any more" >>wrong
right "links to a link to nothing stay ones"
for target in missing/new.cert $'not\xfftext'; do
    ln -s "$target" broken.cert
    ran 2 "refused write" certify plan -o broken.cert
    [[ -L broken.cert && ! -e broken.cert ]] || echo "it is no link any more" >>wrong
    rm broken.cert
    right "a link to what cannot be written"
done
mkdir $'folder\xff'
for name in old.cert link.cert new.cert; do
    (
        cd $'folder\xff' || exit
        echo "old" >old.cert && echo "old" >linked.cert && ln -sf linked.cert link.cert
        ran 0 "" certify ../plan -o "$name"
        has "$name" "$cert"
        [[ -L link.cert ]] || echo "it is no link any more" >>wrong
        cat wrong >>../wrong 2>/dev/null
    )
    right "$name in a folder whose name is no text"
done
echo "old" >mode.cert
chmod 640 mode.cert
ran 0 "" certify plan -o mode.cert
[[ $(stat -c %a mode.cert) == 640 ]] || echo "its mode is $(stat -c %a mode.cert)" >>wrong
right "a replaced file keeps its mode"
echo "old" >two.cert
ln two.cert second.cert
ran 0 "" certify plan -o two.cert
has two.cert "$cert"
has second.cert "old"
right "another name of the replaced file keeps the old text"
echo "somebody's" >.twire-0.part
ran 0 "" certify plan -o beside.cert
has beside.cert "$cert"
has .twire-0.part "somebody's"
rm .twire-0.part
right "a file of the name that is taken first is left"

# Standard output by another name.
"$twire" certify plan -o - >out 2>err || echo "another status" >>wrong
has out "$cert"
right "- is standard output"
"$twire" certify plan -o /dev/stdout >out 2>err || echo "another status" >>wrong
has out "$cert"
right "the path of standard output"
"$twire" certify plan -o /dev/stdout 2>err | cat >out
has out "$cert"
right "the path of standard output, which is a pipe"
for name in /dev/stdout /dev/fd/1 /proc/self/fd/1; do
    (echo "before" && "$twire" certify plan -o "$name" && echo "after") >out 2>err
    has out "before
$cert
after"
    right "standard output by the name $name is written from where it is"
done
(echo "before" && "$twire" check unsafe --wave /dev/stdout) >out 2>err
[[ $(head -n 4 out) == "before
pair 0 a/m b/n: stop against data after 10010000l
unsafe: 1 of 1 pairs
\$version twire \$end" ]] || cat out >>wrong
right "waves into standard output come after the report"

# The certificate of an unsafe plan is a fault, which hints say, since nothing else does.
ran 1 "hint: the plan is not safe: what was written, \"new.cert\", is a fault, and no
hint: proof
hint: 'twire check PLAN --explain' shows the unsafe pairs" certify unsafe -o new.cert --hints always
has new.cert "$unsafe_cert"
"$twire" certify unsafe --hints always >out 2>err
has err "hint: the plan is not safe: what was written is a fault, and no proof
hint: 'twire check PLAN --explain' shows the unsafe pairs"
right "what is said of the certificate of an unsafe plan"
ran 0 "" certify plan -o new.cert --hints always
right "nothing is said of that of a safe one"

# Files in hints can be pasted into a shell: there each word of these is the name that was given.
# pasted WORD NAME: what bash makes of this word.
pasted() {
    local word
    eval "word=$1"
    [[ $word == "$2" ]] || printf '%s is %s, and not %s\n' "$1" "$word" "$2" >>wrong
    ! LC_ALL=C grep -q '[^ -~]' <<<"$1" || echo "it does not print" >>wrong
}
for name in missing "my plan; \$(touch made)" "it's" 'a"b`c`' $'it\'s \\ $HOME!' $'a\nb\tc' $'\e[31mred' $'a\u202eb' $'\u00ad\ufeff' '*' '~' ''; do
    "$twire" check "$name" --hints always >out 2>err
    word=$(sed -n 's/^hint: PLAN, the plan \(.*\), cannot be opened:$/\1/p' err)
    pasted "$word" "$name"
    [[ ! -e made ]] || echo "a command in it was run" >>wrong
    right "the name $word in a hint"
done
ran 2 "refused read
hint: PLAN, the plan \"./-x\", cannot be opened:
hint: No such file or directory (os error 2)" check --hints always -- -x
right "a name that would be an option"
ran 2 '{"kind":"refusal","code":"read","file":"'$'a\u202eb''","reason":"no such file"}
{"kind":"hint","form":"sentence","text":"PLAN, the plan $'"'a\\\\xe2\\\\x80\\\\xaeb'"', cannot be opened:"}
{"kind":"hint","form":"sentence","text":"No such file or directory (os error 2)"}' check $'a\u202eb' --hints always --format json
right "a mark of direction in an object"
hidden=$'a\u202eb'
printf '%s\n' "brief 1" "message m write 0x48 any ;" "message n write 0x48 ;" "controller a m ;" "controller b n ;" >"$hidden"
"$twire" check "$hidden" --explain >out 2>err
grep '^    see ' out >first
has first '    see a\xe2\x80\xaeb:2 and a\xe2\x80\xaeb:3'
right "a mark of direction in a line for people"
"$twire" page "$hidden" 2>err | grep -o '<\(title\|h1\)>[^<]*' >out
has out '<title>twire: a\xe2\x80\xaeb
<h1>a\xe2\x80\xaeb'
right "a mark of direction in the title of a page"
sed 's/any/any ; byte c 0x01/' "$hidden" >odd
mv odd "$hidden"
"$twire" check "$hidden" --hints always >out 2>err
grep 'no message names' err >first
has first 'hint: a\xe2\x80\xaeb:2: no message names byte '"'c'"
right "a mark of direction in a hint with a line"
rm "$hidden"
long="a name with many words that is broken nowhere, as it could not be pasted then"
"$twire" check plan --wave "$long" --hints always >out 2>err
has err "hint: the plan is safe: there is nothing to draw, so
hint: \"$long\"
hint: was not written"
right "a name with blanks is broken nowhere"
# Why there is nothing to draw: a pair that is safe, none of this number, a plan that is not accepted. (pairs 0 and 1, of which
# the first is unsafe)
stop=$examples/stop_meets_data.plan
for it in "1:pair 1 is safe" "2:the plan has no pair 2"; do
    "$twire" check "$stop" --wave w.vcd --pair "${it%%:*}" --hints always >out 2>err
    tr '\n' ' ' <err | sed 's/ hint: / /g; s/ $//' >words
    has words "hint: ${it#*:}: there is nothing to draw, so \"w.vcd\" was not written"
    [[ ! -e w.vcd ]] || echo "there is a file" >>wrong
    right "nothing to draw: ${it#*:}"
done
"$twire" check plan $'\e[31m\u202e' >out 2>err
head -n 1 err >first
has first "error: unexpected argument '\x1b[31m\xe2\x80\xae' found"
right "a word that is refused is escaped"
"$top/tools/dump" 100100000 >"my dump.vcd"
cp plan 'my plan; $(touch made)'
"$twire" capture 'my plan; $(touch made)' "my dump.vcd" --scl clock --hints always >out 2>err
command=$(sed -n 's/^hint:   twire \(capture .*\)/\1/p' err)
[[ $command == "capture 'my plan; \$(touch made)' \"my dump.vcd\" --scl scl --sda sda" ]] || cat err >>wrong
eval "\"\$twire\" $command" >out 2>err
has out "5-160 a/m
1 transactions, 0 unexplained"
[[ ! -e made ]] || echo "a command in a name was run" >>wrong
right "a command to try works"
rm "my dump.vcd" 'my plan; $(touch made)' first

# A mark after the end of a text whose last line is cut: no line has more than 80 columns.
printf 'plan 1\nmessage m write 1001000 00000000 00000001 00000010 00000011 00000100 00000101' >short
ran 2 "refused P3 line 2
hint: line 2 of the plan:
hint:   ..m write 1001000 00000000 00000001 00000010 00000011 00000100 00000101
hint:                                                                          ^
hint: the text ends here
hint: expected here: 'stop', 'again' or a data byte (eight of '0', '1' and 'x')" check short --hints always
right "a mark after a long last line"

# Colours are in no file, and nowhere where nobody sees a terminal. Where they are asked for, the words alone have them.
red=$'\e[31m'
green=$'\e[32m'
plain=$'\e[0m'
# shown NAME TEXT ARG..: what a run writes on standard output, and its hints behind it.
shown() {
    "$twire" "${@:3}" >out 2>&1
    has out "$2"
    right "$1"
}
shown "a safe plan in colours" "${green}safe${plain}: 1 pairs" check plan --color always
shown "an unsafe plan in colours" "pair 0 a/m b/n: stop against data after 10010000l
${red}unsafe${plain}: 1 of 1 pairs" check unsafe --color always
echo "$cert" >right.cert
shown "a right certificate in colours" "accepted ${green}safe${plain}" verify plan right.cert --color always
echo "$unsafe_cert" >fault.cert
shown "a right fault in colours" "accepted ${red}unsafe${plain}" verify unsafe fault.cert --color always
"$top/tools/dump" 100101000 >other.vcd
shown "a transaction that nobody explains in colours" "5-160 ${red}unexplained${plain}
1 transactions, 1 unexplained" capture plan other.vcd --color always
shown "marks in a colour" "refused P3 line 1
hint: line 1 of the plan:
hint:   plan 1 ;
hint:          ${red}^${plain}
hint: expected here: 'message', 'controller' or 'interrupt'" check refused --color always --hints always
shown "no colours in a certificate" "$cert" certify plan --color always
"$top/tools/dump" 100101000 >timed.vcd
shown "the same, with times in parts of a second" "5 us-160 us ${red}unexplained${plain}
1 transactions, 1 unexplained" capture plan timed.vcd --color always --times si
NO_COLOR=1 shown "colours that are asked for, where the environment has none" "${green}safe${plain}: 1 pairs" check plan --color always
shown "no word on colours" "safe: 1 pairs" check plan
shown "colours where somebody sees a terminal" "safe: 1 pairs" check plan --color auto
shown "no colours" "safe: 1 pairs" check plan --color never
ran 0 "" certify plan -o colored.cert --color always
has colored.cert "$cert"
right "no colours in a file"

# On a terminal, whose lines end in CR LF.
if type -P script >/dev/null; then
    script -qec "'$twire' check plan" /dev/null </dev/null | tr -d '\r' >out
    has out "${green}safe${plain}: 1 pairs"
    right "colours on a terminal"
    NO_COLOR=1 script -qec "'$twire' check plan" /dev/null </dev/null | tr -d '\r' >out
    has out "safe: 1 pairs"
    right "no colours on a terminal, where the environment has none"
    NO_COLOR=$'\xff' script -qec "'$twire' check plan" /dev/null </dev/null | tr -d '\r' >out
    has out "safe: 1 pairs"
    right "no colours on a terminal, where the environment says so by what is no text"
else
    echo "left out: colours on a terminal (no command 'script')"
fi

# How far a long run is: a line on standard error that goes away. What is read is a FIFO, on which the plan comes more than a
# second after the run has opened it, so that there is a line.
# slowly TEXT COMMAND: what a terminal is given by a command that reads this text from the file slow, in the file terminal; and
# in the file seen what is left to be seen.
slowly() {
    rm -f slow
    mkfifo slow
    timeout 60 bash -c 'exec >slow && sleep 1.2 && cat "$1"' bash "$1" &
    script -qec "$2" /dev/null </dev/null >terminal
    wait
    sed $'s/\r$//; s/.*\r\e\\[K//' terminal >seen
}
# told TEXT: the line had this text at some time.
told() {
    grep -qF $'\r\e[K'"twire: $1"$'\r' terminal || { echo "not told: $1" && cat -v terminal; } >>wrong
}
# quiet FILE: it has no such line, and nothing that takes one away.
quiet() {
    ! grep -qE $'twire: |\e\\[K' "$1" || cat -v "$1" >>wrong
}
if type -P script >/dev/null; then
    bytes=$(wc -c <plan)
    slowly plan "'$twire' check slow"
    told "plan: $bytes bytes"
    told "messages compared with messages: 0"
    has seen "${green}safe${plain}: 1 pairs"
    right "how far a check is"
    slowly plan "'$twire' check slow --explain"
    told "plan: $bytes bytes"
    has seen "${green}safe${plain}: 1 pairs
    where targets acknowledge, decided in the header: 1, later: 0,
    at a read's end: 0; may end together: 0"
    right "how far an explained check is"
    slowly plan "'$twire' certify slow -o slow.cert"
    told "certificate written: $(wc -c <right.cert) bytes"
    has seen ""
    has slow.cert "$cert"
    right "how far a certificate is"
    slowly plan "'$twire' certify slow | cat >piped"
    told "certificate written: $(wc -c <right.cert) bytes"
    has seen ""
    has piped "$cert"
    right "how far a certificate is that goes into a pipe"
    slowly plan "'$twire' certify slow"
    has seen "$cert"
    ! grep -qF "certificate written" terminal || cat -v terminal >>wrong
    right "a certificate on the terminal is not told of"
    slowly plan "'$twire' verify slow right.cert"
    told "certificate: $(wc -c <right.cert) of $(wc -c <right.cert) bytes"
    has seen "accepted ${green}safe${plain}"
    right "how far a certificate is read"
    slowly plan "'$twire' capture slow other.vcd"
    told "capture: $(wc -c <other.vcd) of $(wc -c <other.vcd) bytes"
    has seen "5-160 ${red}unexplained${plain}
1 transactions, 1 unexplained"
    right "how far a capture is read"
    slowly plan "'$twire' check slow 2>err"
    quiet terminal
    has err ""
    right "standard error is no terminal"
    slowly plan "'$twire' print slow"
    quiet terminal
    has seen "$plan"
    right "a command that is never long"
    { sleep 5 && printf '%s\n\004' "$plan"; } | script -qec "'$twire' check -" /dev/null >terminal
    quiet terminal
    grep -q "safe.*: 1 pairs" terminal || cat -v terminal >>wrong
    right "no line beside a plan that is typed"
    script -qec "'$twire' certify plan -o fast.cert" /dev/null </dev/null >terminal
    has terminal ""
    right "nothing is told of a run below a second"
    sed 's/stop ;/stops ;/' plan >plan.wrong
    slowly plan.wrong "'$twire' check slow --hints never"
    told "plan: $(wc -c <plan.wrong) bytes"
    has seen "refused P3 line 2"
    right "the line of a refusal stands alone"
else
    echo "left out: how far a long run is (no command 'script')"
fi

# fault NAME ARG..: a command line that is refused, with a message that is not compared.
fault() {
    call "${@:2}"
    [[ $status == 2 && ! -s out ]] && grep -q '^error: ' err || cat out err >>wrong
    has kept "kept"
    right "$1"
}
fault "no name of a file" certify plan -o
fault "two files" certify plan -o kept -o other
fault "check writes no file" check plan -o kept
fault "verify writes no file" verify plan new.cert -o kept
fault "standard input as both files" verify - -
fault "standard input as both files, by two names" verify /dev/stdin /dev/fd/0
fault "standard input as the plan and the capture" capture - /dev/stdin

finish
