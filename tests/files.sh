#!/usr/bin/env bash
# Files and streams of every kind in the place of a plan, a certificate, a capture and a report: each run ends by itself, with
# the line and the status that are named for it.
source "$(dirname -- "$(readlink -f -- "${BASH_SOURCE[0]}")")/suite.bash" || exit 1

# No run may take longer, in seconds.
limit=60

# called ARG..: a run, with the standard input and output of this call.
called() {
    timeout --signal=KILL "$limit" "$twire" "$@"
}

# Waits for the run that was started in the background: its number is in pid.
await() {
    local began=$SECONDS
    while [[ -e /proc/$pid/exe ]] && ((SECONDS - began < limit)); do
        sleep 0.01
    done
    kill -KILL "$pid" 2>/dev/null
    wait "$pid" 2>/dev/null
    status=$?
}

cat >plan <<'PLAN'
plan 1
message m write 1001000 stop else stop ;
message n write 1001001 stop else stop ;
controller a m ;
controller b n ;
PLAN
printf 'cert 1\npairs 1\nP6\n' >cert
"$top/tools/dump" 100100000 >vcd
safe="safe: 1 pairs"
proofs=$(cat cert)
accepted="accepted safe"
explained=$'5-160 a/m\n1 transactions, 0 unexplained'
# Both send the same six bits, and then a/m sends 0 and b/n 1. No target answers.
played=$'wire 10010000hs\nwon a/m'
echo "plan 1 ;" >bad_plan

# ---- a FIFO, in each place

# feed FILE FIFO: writes the file to a FIFO, in two parts with a while between.
feed() {
    (
        exec 3>"$2"
        head -c 20 "$1" >&3
        sleep 0.1
        tail -c +21 "$1" >&3
    ) &
}

mkfifo fifo fifo2
feed plan fifo
expect "check a FIFO" 0 "$safe" "" check fifo
feed plan fifo
expect "certify a FIFO" 0 "$proofs" "" certify fifo
feed plan fifo
expect "verify, the plan a FIFO" 0 "$accepted" "" verify fifo cert
feed cert fifo
expect "verify, the certificate a FIFO" 0 "$accepted" "" verify plan fifo
feed plan fifo
feed cert fifo2
expect "verify, two FIFOs" 0 "$accepted" "" verify fifo fifo2
feed plan fifo
expect "capture, the plan a FIFO" 0 "$explained" "" capture fifo vcd
feed vcd fifo
expect "capture, the dump a FIFO" 0 "$explained" "" capture plan fifo
feed plan fifo
feed vcd fifo2
expect "capture, two FIFOs" 0 "$explained" "" capture fifo fifo2
feed plan fifo
expect "bench, the plan a FIFO" 0 "$played" "" bench fifo cert a/m,b/n
feed cert fifo
expect "bench, the certificate a FIFO" 0 "$played" "" bench plan fifo a/m,b/n
feed plan fifo
feed cert fifo2
expect "bench, two FIFOs" 0 "$played" "" bench fifo fifo2 a/m,b/n
: >fifo &
expect "check a FIFO that gives nothing" 2 "" "refused P2 line 1" check fifo
: >fifo &
expect "verify a FIFO that gives nothing" 2 "wrong C1 line 1" "" verify plan fifo
: >fifo &
expect "capture of a FIFO that gives nothing" 2 "" "refused V1 scl" capture plan fifo
: >fifo &
expect "bench, the plan a FIFO that gives nothing" 2 "" "refused P2 line 1" bench fifo cert a/m
: >fifo &
expect "bench, the certificate a FIFO that gives nothing" 2 "wrong C1 line 1" "" bench plan fifo a/m

# ---- what cannot be opened, and what opens and cannot be read

mkdir directory
ln -s loop loop
name_too_long=$(printf 'x%.0s' {1..300})
for path in missing directory directory/missing plan/below loop "$name_too_long" ""; do
    expect "check '${path:0:20}'" 2 "" "refused read" check "$path"
    expect "certify '${path:0:20}'" 2 "" "refused read" certify "$path"
    expect "verify '${path:0:20}' as the plan" 2 "" "refused read" verify "$path" cert
    expect "verify '${path:0:20}' as the certificate" 2 "" "refused read" verify plan "$path"
    expect "capture, '${path:0:20}' as the plan" 2 "" "refused read" capture "$path" vcd
    expect "capture, '${path:0:20}' as the dump" 2 "" "refused read" capture plan "$path"
    expect "bench, '${path:0:20}' as the plan" 2 "" "refused read" bench "$path" cert a/m
    expect "bench, '${path:0:20}' as the certificate" 2 "" "refused read" bench plan "$path" a/m
done
# All files are opened first; a directory opens, and fails only once it is read.
expect "verify a refused plan, and no certificate" 2 "" "refused read" verify bad_plan missing
expect "verify a refused plan, and a directory" 2 "" "refused P3 line 1" verify bad_plan directory
expect "capture, a refused plan and no dump" 2 "" "refused read" capture bad_plan missing
expect "capture, a refused plan and a directory" 2 "" "refused P3 line 1" capture bad_plan directory
expect "bench, a refused plan and no certificate" 2 "" "refused read" bench bad_plan missing a/m
expect "bench, a refused plan and a directory" 2 "" "refused P3 line 1" bench bad_plan directory a/m

# ---- empty files

: >empty
expect "check an empty file" 2 "" "refused P2 line 1" check empty
expect "certify an empty file" 2 "" "refused P2 line 1" certify empty
expect "verify an empty plan" 2 "" "refused P2 line 1" verify empty cert
expect "verify an empty certificate" 2 "wrong C1 line 1" "" verify plan empty
expect "capture of an empty plan" 2 "" "refused P2 line 1" capture empty vcd
expect "capture of an empty dump" 2 "" "refused V1 scl" capture plan empty
expect "bench of an empty plan" 2 "" "refused P2 line 1" bench empty cert a/m
expect "bench with an empty certificate" 2 "wrong C1 line 1" "" bench plan empty a/m
expect "check /dev/null" 2 "" "refused P2 line 1" check /dev/null
expect "verify /dev/null" 2 "wrong C1 line 1" "" verify plan /dev/null
expect "capture of /dev/null" 2 "" "refused V1 scl" capture plan /dev/null
expect "bench with /dev/null" 2 "wrong C1 line 1" "" bench plan /dev/null a/m

# ---- files of zeros alone, which have no line feed

truncate -s 1M zeros
expect "check zeros" 2 "" "refused P3 line 1" check zeros
expect "certify zeros" 2 "" "refused P3 line 1" certify zeros
expect "verify a plan of zeros" 2 "" "refused P3 line 1" verify zeros cert
expect "verify a certificate of zeros" 2 "wrong C1 line 1" "" verify plan zeros
expect "capture of a plan of zeros" 2 "" "refused P3 line 1" capture zeros vcd
expect "capture of a dump of zeros" 2 "" "refused V2 line 1" capture plan zeros
expect "bench of a plan of zeros" 2 "" "refused P3 line 1" bench zeros cert a/m
expect "bench with a certificate of zeros" 2 "wrong C1 line 1" "" bench plan zeros a/m

# ---- a file that changes once it has been opened, and before it is read: the plan's FIFO holds the run

# paused CHANGE..: runs `capture` on a dump that is changed so while the run waits for its plan.
paused() {
    "$twire" capture fifo changing >out 2>err &
    pid=$!
    exec 3>fifo
    until [[ /proc/$pid/fd/4 -ef changing || ! -e /proc/$pid/exe ]]; do :; done
    "$@"
    cat plan >&3
    exec 3>&-
    await
}

cut_dump() { truncate -s 0 changing; }
grow_dump() { "$top/tools/dump" 100100010 | sed -n '/^#5 /,$s/^#/#1000/p' >>changing; }
remove_dump() { rm changing; }

cp vcd changing
paused cut_dump
judge "a dump that is emptied before it is read" 2 "" "refused V1 scl"
cp vcd changing
paused grow_dump
judge "a dump that grows before it is read" 1 $'5-160 a/m\n10005-1000160 unexplained\n2 transactions, 1 unexplained' ""
cp vcd changing
paused remove_dump
judge "a dump that is removed before it is read" 0 "$explained" ""

# ---- a file that changes before its refusal is told, and its hints with it

# Whether the run waits to write to standard error: the call `write`, number 1, to descriptor 2.
waits_to_tell() {
    local call to
    read -r call to _ <"/proc/$pid/syscall" && [[ $call == 1 && $to == 0x2 ]]
} 2>/dev/null

# refused_then CHANGE ARG..: a run on the file `changing`, which CHANGE changes once it was read: standard error is a full pipe,
# where the run waits to write the line of its refusal.
refused_then() {
    local cat
    rm -f full && mkfifo full
    exec 3<>full
    dd if=/dev/zero of=full bs=4096 oflag=nonblock 2>/dev/null
    "$twire" "${@:2}" >out 2>full 3>&- &
    pid=$!
    until waits_to_tell || [[ ! -e /proc/$pid/exe ]]; do sleep 0.01; done
    "$1"
    tr -d '\0' <full >err 3>&- &
    cat=$!
    exec 3>&-
    await
    wait "$cat"
}

make_a_plan() { printf 'plan 1\n' >changing; }
end_nothing() { printf '$end' >changing; }

printf 'board 1\n' >changing
refused_then make_a_plan check changing --hints always
judge "hints on a plan that was changed" 2 "" "refused P2 line 1
hint: line 1 of the plan:
hint:   board 1
hint:   ^^^^^
hint: a plan begins with 'plan 1', or with 'plan 2' where it has ranges of
hint: counts or 'never'
hint: a brief begins with 'brief 1' or 'brief 2'"
{ cat vcd && echo '?'; } >changing
line=$(wc -l <changing)
refused_then end_nothing capture plan changing --hints always
judge "hints on a dump that was changed" 2 "" "refused V2 line $line
hint: line $line of the capture:
hint:   ?
hint:   ^
hint: expected here: a time as '#10', a change as '1!' or 'b01 !', or a command
hint: as '\$comment'"

# ---- a file that changes in the midst of being read

# stopped FD FILE ARG..: starts a run, and stops it where it has read a part of the file, as its descriptor with this number.
# Says whether that went well; then pid is the run, and position how much it has read.
stopped() {
    local fd=$1 file=$2 name
    "$twire" "${@:3}" >out 2>err &
    pid=$!
    position=0
    while [[ $position == 0 && -e /proc/$pid/exe ]]; do
        [[ /proc/$pid/fd/$fd -ef $file ]] && read -r name position <"/proc/$pid/fdinfo/$fd"
    done 2>/dev/null
    kill -STOP "$pid" 2>/dev/null
    until [[ ! -e /proc/$pid/exe || $(<"/proc/$pid/stat") == *") T "* ]]; do :; done 2>/dev/null
    { read -r name position <"/proc/$pid/fdinfo/$fd"; } 2>/dev/null && ((0 < position && position < $(stat -c %s "$file")))
}

go_on() {
    kill -CONT "$pid"
    await
}

# changed MAKE CHANGE FD ARG..: a run on the file `long`, which MAKE makes of some number of bytes, and which CHANGE changes
# while the run is stopped in the midst of it. A run that was not caught so is tried again with twice as many bytes.
changed() {
    local make=$1 change=$2 fd=$3 size=8388608 try
    for try in {1..6}; do
        "$make" "$size"
        if stopped "$fd" long "${@:4}"; then
            "$change"
            go_on
            return
        fi
        kill -CONT "$pid" 2>/dev/null
        await
        size=$((2 * size))
    done
    status=never
}

long_plan() { { cat plan && printf '#'; } >long && truncate -s "$1" long; }
long_dump() { { cat vcd && printf '$comment '; } >long && truncate -s "$1" long; }
long_cert() { { printf 'cert 1\npairs 1\n' && yes P6 | head -c "$1"; } >long; }
cut_short() { truncate -s 10 long; }
cut_here() { truncate -s "$position" long; }
grow_by_a_controller() { cut_here && printf '\ncontroller c m ;\n' >>long; }
grow_by_a_time() { cut_here && printf '\n$end #160 #159\n' >>long; }
grow_after_its_end() { printf '\ncontroller c m n ;\n' >>long; }
remove() { rm long; }

changed long_plan cut_short 3 check long
judge "check a plan that is cut while it is read" 0 "$safe" ""
changed long_plan cut_short 3 certify long
judge "certify a plan that is cut while it is read" 0 "$proofs" ""
changed long_plan cut_short 3 verify long cert
judge "verify a plan that is cut while it is read" 0 "$accepted" ""
changed long_plan cut_short 3 capture long vcd
judge "capture, a plan that is cut while it is read" 0 "$explained" ""
changed long_plan cut_short 3 bench long cert a/m,b/n
judge "bench, a plan that is cut while it is read" 0 "$played" ""
changed long_plan grow_by_a_controller 3 check long
judge "check a plan that grows where it is read" 0 "safe: 3 pairs" ""
changed long_plan grow_after_its_end 3 check long
judge "check a plan that grows after what was read" 0 "safe: 5 pairs" ""
changed long_plan remove 3 check long
judge "check a plan that is removed while it is read" 0 "$safe" ""

comment_line=$(($(wc -l <vcd) + 1))
changed long_dump cut_short 4 capture plan long
judge "capture of a dump that is cut while it is read" 2 "" "refused V4 line $comment_line"
changed long_dump grow_by_a_time 4 capture plan long
judge "capture of a dump that grows where it is read" 2 "" "refused V3 line $((comment_line + 1))"

# Of a certificate that is cut so many bytes are read: 15 of the first two lines, and then three a line.
changed long_cert cut_short 4 verify plan long
lines=$(((position - 15) / 3))
if (((position - 15) % 3 == 0)); then
    judge "verify a certificate that is cut between two lines while it is read" 2 "wrong C2" ""
else
    judge "verify a certificate that is cut while it is read" 2 "wrong C1 line $((3 + lines))" ""
fi

# ---- signals that leave a run alone, while it waits for a FIFO

trap '' ALRM
# (The descriptor is none that a run would have, so that the wait ends once the run, and no shell that becomes it, has the FIFO.)
held_by_signals() {
    local signal
    exec 9<>fifo
    "$twire" "$@" >out 2>err 9>&- &
    pid=$!
    until [[ /proc/$pid/fd/3 -ef fifo || /proc/$pid/fd/4 -ef fifo || ! -e /proc/$pid/exe ]]; do :; done
    head -c 12 "$sent" >&9
    for signal in STOP CONT ALRM STOP WINCH CONT URG CHLD ALRM; do
        sleep 0.02
        kill "-$signal" "$pid"
    done
    tail -c +13 "$sent" >&9
    exec 9>&-
    await
}

sent=plan
held_by_signals check fifo
judge "check a FIFO, with signals" 0 "$safe" ""
held_by_signals certify fifo
judge "certify a FIFO, with signals" 0 "$proofs" ""
sent=cert
held_by_signals verify plan fifo
judge "verify a FIFO, with signals" 0 "$accepted" ""
held_by_signals bench plan fifo a/m,b/n
judge "bench, the certificate a FIFO, with signals" 0 "$played" ""
sent=vcd
held_by_signals capture plan fifo
judge "capture of a FIFO, with signals" 0 "$explained" ""
trap - ALRM

# ---- standard input that is closed

expect "check closed standard input" 2 "" "refused read" check /dev/stdin <&-
expect "certify closed standard input" 2 "" "refused read" certify /dev/stdin <&-
expect "verify, the plan closed standard input" 2 "" "refused read" verify /dev/stdin cert <&-
expect "verify, the certificate closed standard input" 2 "" "refused read" verify plan /dev/stdin <&-
expect "capture, the plan closed standard input" 2 "" "refused read" capture /dev/stdin vcd <&-
expect "capture, the dump closed standard input" 2 "" "refused read" capture plan /dev/stdin <&-
expect "bench, the plan closed standard input" 2 "" "refused read" bench /dev/stdin cert a/m <&-
expect "bench, the certificate closed standard input" 2 "" "refused read" bench plan /dev/stdin a/m <&-
expect "check -, standard input closed" 2 "" "refused read" check - <&-
expect "verify, the certificate -, standard input closed" 2 "" "refused read" verify plan - <&-
expect "verify, the certificate /dev/fd/0, standard input closed" 2 "" "refused read" verify plan /dev/fd/0 <&-
expect "verify, the certificate the descriptor that the plan would have" 2 "" "refused read" verify plan /dev/fd/3 3<&-
expect "capture, the dump /proc/self/fd/3, that the plan would have" 2 "" "refused read" capture plan /proc/self/fd/3 3<&-
expect "check -" 0 "$safe" "" check - <plan
expect "verify, the plan -" 0 "$accepted" "" verify - cert <plan
expect "verify, the certificate -" 0 "$accepted" "" verify plan - <cert
expect "capture, the dump -" 0 "$explained" "" capture plan - <vcd
expect "bench, the certificate -" 0 "$played" "" bench plan - a/m,b/n <cert
cp plan ./-
expect "check a file that is called -" 0 "$safe" "" check ./-
rm ./-
expect "check a file, with closed standard input" 0 "$safe" "" check plan <&-
expect "certify a file, with closed standard input" 0 "$proofs" "" certify plan <&-
expect "verify files, with closed standard input" 0 "$accepted" "" verify plan cert <&-
expect "capture of files, with closed standard input" 0 "$explained" "" capture plan vcd <&-
expect "bench of files, with closed standard input" 0 "$played" "" bench plan cert a/m,b/n <&-

# ---- standard output that takes nothing, or little at once

mkfifo unread
for words in "check plan" "certify plan" "verify plan cert" "verify plan empty" "capture plan vcd" \
    "bench plan cert a/m,b/n" "bench plan empty a/m"; do
    read -ra arguments <<<"$words"
    unwritten "$words, standard output closed" "refused write" "${arguments[@]}" >&-
    unwritten "$words, standard input and output closed" "refused write" "${arguments[@]}" <&- >&-
    exec 3<>unread 4>unread 3<&-
    unwritten "$words, onto a pipe that nobody reads" "refused write" "${arguments[@]}" >&4 4>&-
    exec 4>&-
    if [[ -c /dev/full ]]; then
        unwritten "$words, onto a full device" "refused write" "${arguments[@]}" >/dev/full
    fi
done
for words in "check bad_plan" "certify bad_plan" "verify bad_plan cert" "capture bad_plan vcd" "bench bad_plan cert a/m"; do
    read -ra arguments <<<"$words"
    unwritten "$words, standard output closed" "refused P3 line 1" "${arguments[@]}" >&-
done
unwritten "bench of an unknown starter, standard output closed" "refused B2" bench plan cert q >&-

# ---- owners

# owned WANTED FILE: its owner, group and mode.
owned() {
    local found
    found=$(stat -c '%u:%g %a' "$2")
    [[ $found == "$1" ]] && return
    fails "$name: wanted $1, found $found"
}

# Who may give files away gives the new file to whom the old one was of; else it runs as nobody else. A shared file, in a folder
# in which everybody may write, is replaced by another user.
if ((EUID == 0)); then
    for mode in 640 6755; do
        printf 'brief 1\n\ndevice  a 0x48 ;\n' >theirs
        chown 65534:65533 theirs && chmod "$mode" theirs
        name="in place of another's file, mode $mode"
        expect "$name" 0 "" "" format --in-place theirs
        owned "65534:65533 $mode" theirs
        name="in place of another's certificate, mode $mode"
        expect "$name" 0 "" "" certify plan -o theirs
        owned "65534:65533 $mode" theirs
    done
    mkdir shared && chmod 777 shared && chmod 755 .
    as_nobody=(setpriv --reuid 65534 --regid 65534 --clear-groups)
    if "${as_nobody[@]}" "$twire" --version >/dev/null 2>&1; then
        # (of a file that another user than root writes the system takes these bits itself)
        for before in 0:0 65534:0 0:65534 65534:65534; do
            printf 'brief 1\n\ndevice  a 0x48 ;\n' >shared/ours
            chown "$before" shared/ours && chmod 6777 shared/ours
            "${as_nobody[@]}" "$twire" format --in-place shared/ours >out 2>err
            status=$?
            name="in place as another user, of $before"
            judge "$name" 0 "" ""
            owned "65534:65534 777" shared/ours
        done
    else
        echo "left out: files in place as another user (setpriv is missing, or the program is not for all)"
    fi
fi

# A report longer than a pipe holds, which is read late, while the run is stopped and goes on.
"$top/tools/dump" 100100000 4000 >long
called capture plan long >report
mkfifo pipe
"$twire" capture plan long >pipe 2>err &
pid=$!
exec 3<pipe
sleep 0.3
kill -STOP "$pid"
sleep 0.05
kill -CONT "$pid"
cat <&3 >out
exec 3<&-
await
judge "a long report through a pipe, with signals" 0 "$(cat report)" ""
expect "a long report is longer than a pipe" 0 "$(cat report)" "" capture plan long
(($(stat -c %s report) > 65536)) || fails "the long report is short"

finish
