#!/usr/bin/env bash
# Runs twire mend: the offers that it lists, the texts that it writes with those that are taken, files in place, and what it refuses.
# It compares the exit status and all that is written.
source "$(dirname -- "$(readlink -f -- "${BASH_SOURCE[0]}")")/suite.bash" || exit 1

# What mend and `check --explain` say alike: the offers, and the last lines.
alike='/^    group [0-9]+[:,]/ { on = 0 } /^    [0-9]+\.[0-9]+ / || /^(un)?safe: / { on = 1 } on'

# The inode of a file, and when it was changed.
stamp() {
    stat -c '%n %i %y' "$@"
}

# ---- offers are listed

lines six.brief "brief 1" "device t 0x48 ;                    # the sensor" \
    "message few  write t any   read t 1..20 read t 1 ;" \
    "message many write t any read t 10..30 ;   # in one go" \
    "message spare write 0x10 any ;" \
    "controller a few spare ;" "controller b many ;" "controller c spare ;"
call mend six.brief
same "the status of an unsafe plan" 1 "$status$(cat err)"
same "a line for each group" "    group 0: a/few × b/many: 1 pair, one ends, one repeats START" "$(head -n 1 out)"
same "all offers, numbered from 1" "0.1 0.2 0.3 0.4 0.5 0.6" "$(sed -n 's/^    \([0-9]*\.[0-9]*\) .*/\1/p' out | xargs)"
same "the lines of an offer as they would stand, with their comments" 1 \
    "$(grep -cxF '    message many write t any read t 21..30 ;   # in one go' out)"
same "what check says, then the list, and the command that takes it" "unsafe: 1 of 5 pairs
    to mend all pairs: 0.1; then check says 'safe: 5 pairs'
    to make these edits: twire mend six.brief --all --in-place" "$(tail -n 3 out)"
same "no line is wider than a terminal, but for one to be copied" "" "$(grep -v '^    message ' out | grep '.\{81,\}')"
"$twire" check six.brief --explain | awk "$alike" >told
awk "$alike" out | sed -e '/^    0\.5 /,/^unsafe/{/^unsafe/!d}' >found
sed -i '/^    and 2 more offers$/d' told
same_file "the first four as check says them" told found

# The words of all groups are those of check, where it shows all offers. (A plan of thousands of pairs takes a trial build long.)
plans=()
for plan in "$examples"/*.plan "$examples"/*.brief; do
    [[ $plan == */server_board.* ]] || plans+=("$plan")
done
for plan in "${plans[@]}"; do
    cp "$plan" .
    plan=${plan##*/}
    "$twire" check "$plan" --summary --most 1000 | awk "$alike" | sed '/^    .*decided\|^    .*alike\|^    no pair/d' >told
    call mend "$plan"
    awk "$alike" out >found
    if ((status == 1)); then
        same_file "$plan: the offers of check" told found
    else
        same "$plan: a safe plan has one line" "$("$twire" check "$plan" | tail -n 1)" "$(cat out)"
    fi
done

# With objects: a group has those of check, and more where it has more than four.
"$twire" check six.brief --explain --format json >told
call mend six.brief --format json
same "objects: the status" 1 "$status$(cat err)"
same "objects: one for each group, and the plan" "group plan" "$(sed 's/{"kind":"\([a-z]*\)".*/\1/' out | xargs)"
same "objects: all offers of a group" 6 "$(grep -o '"offer":"0\.[0-9]"' out | sort -u | wc -l)"
same "objects: none is left over" 0 "$(grep -c '"more"' out)"
shown=$(grep '"kind":"group"' told | sed 's/\],"more":2}}$//')
same "objects: the first four are those of check" "$shown" "$(grep '"kind":"group"' out | head -c ${#shown})"
same "objects: the plan is that of check" "$(grep '"kind":"plan"' told)" "$(grep '"kind":"plan"' out)"
"$twire" check "$examples/stop_meets_data.plan" --explain --format json | grep -v '"kind":"pair"' >told
"$twire" mend "$examples/stop_meets_data.plan" --format json >found
same_file "objects of a plan with few offers" told found
expect "objects: a safe plan" 0 '{"kind":"plan","safe":true,"pairs":2,"unsafe_pairs":0}' "" mend "$examples/two_writers.plan" --format json
want_of mend six.brief
run "with workers the same is offered" mend --workers 4 six.brief
want_of mend six.brief
run "messages of compilers change no list" mend six.brief --format gcc

# ---- a text with the offers that are taken

# taken NAME LIST SED: with these offers the text of six.brief is changed so, the plan is safe, and the file stays.
taken() {
    local before
    before=$(stamp six.brief)
    expect "$1" 0 "$(sed "$3" six.brief)" "" mend six.brief --take "$2"
    same "$1: the file" "$before" "$(stamp six.brief)"
}

taken "a narrowed count" 0.1 's/1\.\.20/1..9/'
taken "the other count" 0.2 's/10\.\.30/21..30/'
taken "a bit on both sides" 0.3 's/^\(message few  write t\) any/\1 0b0xxxxxxx/; s/^\(message many write t\) any/\1 0b1xxxxxxx/'
taken "a write that is left out" 0.4 's/^\(message few  \)write t any   /\1/'
taken "a never at the end" 0.6 '$a never a/few b ;'
taken "two offers of one group" 0.2,0.1 's/1\.\.20/1..9/; s/10\.\.30/21..30/'
taken "one twice" 0.1,0.1 's/1\.\.20/1..9/'
expect "the list" 0 "$(sed 's/1\.\.20/1..9/' six.brief)" "" mend six.brief --all
expect "from standard input" 0 "$(sed 's/1\.\.20/1..9/' six.brief)" "" mend - --all <six.brief
expect "into a file" 0 "" "" mend six.brief --take 0.6 -o mended.brief
same "into a file: the text" "$(sed '$a never a/few b ;' six.brief)" "$(cat mended.brief)"
expect "the file is that of a check" 0 "safe: 4 pairs" "" check mended.brief
expect "- is standard output" 0 "$(sed 's/1\.\.20/1..9/' six.brief)" "" mend six.brief --all --output -
expect "into the file that was read" 2 "" "refused write" mend six.brief --all -o six.brief

# Hints say what check says of the text.
expect "hints" 0 "$(sed 's/1\.\.20/1..9/' six.brief)" 'hint: changed: "six.brief"
hint: check then says '"'safe: 5 pairs'" mend six.brief --take 0.1 --hints always
expect "hints: how many are not checked" 0 "$(sed '$a never a/few b ;' six.brief)" 'hint: changed: "six.brief"
hint: check then says '"'safe: 4 pairs' (1 pair is not checked)" mend six.brief --take 0.6 --hints always
expect "hints as objects" 0 "$(sed 's/1\.\.20/1..9/' six.brief)" '{"kind":"hint","form":"sentence","text":"changed: \"six.brief\""}
{"kind":"hint","form":"sentence","text":"check then says '"'safe: 5 pairs'"'"}' mend six.brief --take 0.1 --hints always --format json

# The status is that of the edited text, also where one group of two is mended.
lines two.plan "plan 1" "message p write 0010000 stop else stop ;" \
    "message q write 0010000 00000001 stop else stop else stop ;" \
    "message r write 0010001 stop else stop ;" \
    "message s write 0010001 00000001 stop else stop else stop ;" \
    "controller a p r ;" "controller b q s ;"
expect "one group of two" 1 "$(sed '2s/write 0010000/read 0010000 1/' two.plan)" 'hint: changed: "two.plan"
hint: check then says '"'unsafe: 1 of 4 pairs'" mend two.plan --take 0.1 --hints always
expect "both groups" 0 "$(sed '2s/write 0010000/read 0010000 1/; 4s/write 0010001/read 0010001 1/' two.plan)" "" mend two.plan --take 0.1,1.1
expect "the list of two groups" 0 "$(sed '2s/write 0010000/read 0010000 1/; 4s/write 0010001/read 0010001 1/' two.plan)" "" mend two.plan --all

# What the last lines say is what check says of the texts with the list.
for plan in "${plans[@]}" six.brief two.plan; do
    "$twire" mend "$plan" --all >mended
    status=$?
    said=$("$twire" mend "$plan" | sed -n "s/.*check says '\(.*\)'.*/\1/p")
    same "${plan##*/}: what check then says" "${said:-$("$twire" check "$plan" | tail -n 1)}, $status" \
        "$("$twire" check mended | tail -n 1), $("$twire" check mended >/dev/null; echo $?)"
done

# ---- plan 1 becomes plan 2

lines one.plan "plan 1   # first" "message p write 0010000 stop else stop ;" \
    "message q write 0010000 00000001 stop else stop else stop ;" \
    "message r write 0010001 stop else stop ;" \
    "controller a p r ;" "controller b q ;" "controller c r ;"
never=$("$twire" mend one.plan --format json | grep -o '"offer":"[0-9.]*","kind":"never"' | cut -d '"' -f 4)
expect "a never in a plan 1" 0 "$(sed '1s/1/2/; $a never a b ;' one.plan)" "" mend one.plan --take "$never"
expect "a never in a plan 1, in place" 0 "" "" mend one.plan --take "$never" --in-place
same "its head" "plan 2   # first" "$(head -n 1 one.plan)"
expect "what is left to check" 0 "safe: 3 pairs" "" check one.plan

# ---- several files

# A board in three files. One has ends of lines of CR LF, one has comments in its items, and one is not changed.
board() {
    mkdir -p board
    lines board/board.brief "brief 2" 'with "bmc.brief" ; with "host.brief" ;'
    lines board/devices.brief "brief 2" "device ee 0x50 ;"
    printf '%s\r\n' "brief 2   # the BMC" 'with "devices.brief" ;' "" $'message page   write ee any any*3 ;\t# a page' "controller  bmc page ;" >board/bmc.brief
    lines board/host.brief "# the host" "brief 2" 'with "devices.brief" ;' "message entry  # random read" \
        "    write ee  # its address" "      any" "    read ee 1 ;" "" "controller host entry ;"
}

board
chmod 640 board/bmc.brief
same "the board is unsafe" "unsafe: 1 of 1 pairs" "$("$twire" check board/board.brief | tail -n 1)"
cp -r board before
expect "several files change" 2 "" "refused files board/bmc.brief, board/host.brief" mend board/board.brief --take 0.1
expect "several files change: hints" 2 "" 'refused files board/bmc.brief, board/host.brief
hint: these files change: "board/bmc.brief", "board/host.brief"; '"'--in-place'"'
hint: writes them' mend board/board.brief --all --hints always
expect "several files change: an object" 2 "" '{"kind":"refusal","code":"files","files":["board/bmc.brief","board/host.brief"],"reason":"these files change: \"board/bmc.brief\", \"board/host.brief\"; '"'--in-place'"' writes them"}' \
    mend board/board.brief --all --format json
expect "several files change: a message" 2 "" 'twire: error: these files change: "board/bmc.brief", "board/host.brief"; '"'--in-place'"' writes them' \
    mend board/board.brief --all --format gcc
expect "several files change: into a file" 2 "" "refused files board/bmc.brief, board/host.brief" mend board/board.brief --all -o new.brief
same "several files change: it is not there" "" "$(find . -name new.brief)"
same "several files change: the files" "" "$(diff -r before board)"

untouched=$(stamp board/board.brief board/devices.brief)
expect "in place" 0 "" 'hint: changed: "board/bmc.brief", "board/host.brief"
hint: check then says '"'safe: 1 pairs'" mend board/board.brief --all --in-place --hints always
sed '/^message/s/ any / 0b0xxxxxxx /' before/bmc.brief >wanted
same_file "in place: ends of lines and comments" wanted board/bmc.brief
sed '/^      any$/s/any/0b1xxxxxxx/' before/host.brief >wanted
same_file "in place: an item on several lines" wanted board/host.brief
same "in place: files that do not change" "$untouched" "$(stamp board/board.brief board/devices.brief)"
same "in place: the mode" 640 "$(stat -c %a board/bmc.brief)"
same "in place: nothing is left" "" "$(find . -name '*.part')"
expect "in place: what check says" 0 "safe: 1 pairs" "" check board/board.brief
untouched=$(stamp board/*)
expect "in place, once more" 0 "" "hint: nothing changes
hint: check then says 'safe: 1 pairs'" mend board/board.brief --all --in-place --hints always
same "in place, once more: the files" "$untouched" "$(stamp board/*)"

# Where one file of two changes its text alone is written.
pointer=$("$twire" mend before/board.brief --format json | grep -o '"offer":"[0-9.]*","kind":"pointer"' | cut -d '"' -f 4)
call mend before/board.brief --take "$pointer"
same "one file of a board" "0, 0 writes" "$status, $(grep -c 'write' out) writes"
same "one file of a board: which" "# the host" "$(head -n 1 out)"

# The same briefs by --with, which names them in another order.
rm -r board
board
sed -i '/^with/d' board/bmc.brief board/host.brief
expect "files of --with" 0 "" "" mend board/devices.brief --with board/host.brief --with board/bmc.brief --all --in-place
expect "files of --with: what check says" 0 "safe: 1 pairs" "" check board/devices.brief --with board/host.brief --with board/bmc.brief

# Each file is written beside itself before the first is replaced: where one finds no room none is changed.
rm -r board
board
sed -i '/^with/d' board/bmc.brief board/host.brief
for ((k = 0; k < 100; k++)); do echo "# a line of a file that is long"; done >>board/host.brief
rm -r before
cp -r board before
same "no room for the second" "refused write, status 2" \
    "$(ulimit -f 1 && trap '' XFSZ && answer mend board/devices.brief --with board/bmc.brief --with board/host.brief --all --in-place)"
same "no room for the second: the files" "" "$(diff -r before board)"
same "no room for the second: nothing is left" "" "$(find . -name '*.part')"
same "no room: the file is named" 'hint: the output "board/host.brief" was not written:' \
    "$(ulimit -f 1 && trap '' XFSZ && answer mend board/devices.brief --with board/bmc.brief --with board/host.brief --all --in-place --hints always | sed -n 2p)"
mkfifo fifo
timeout 10 cat six.brief >fifo &
expect "a pipe in place" 2 "" "refused write" mend fifo --all --in-place
wait $!
ln -s six.brief link
cp six.brief kept
expect "through a link" 0 "" "" mend link --all --in-place
same "through a link: the link" six.brief "$(readlink link)"
same "through a link: the file" "$(sed 's/1\.\.20/1..9/' kept)" "$(cat six.brief)"
cp kept six.brief

# ---- a safe plan

cp "$examples/two_writers.brief" safe.brief
count=$("$twire" check safe.brief)
expect "a safe plan" 0 "$count" "" mend safe.brief
untouched=$(stamp safe.brief)
"$twire" mend safe.brief --all >found
same "a safe plan: the status" 0 $?
same_file "a safe plan: the text as it is" safe.brief found
expect "a safe plan in place" 0 "" "" mend safe.brief --all --in-place
same "a safe plan in place: the file" "$untouched" "$(stamp safe.brief)"
expect "a safe plan has no offer" 2 "" "refused offer 0.1
hint: there is no offer 0.1: the plan is safe" mend safe.brief --take 0.1 --hints always

# ---- offers that are not taken

expect "no such offer" 2 "" "refused offer 0.7" mend six.brief --take 0.7
expect "no such offer: hints" 2 "" "refused offer 0.7
hint: there is no offer 0.7: group 0 has 6 offers" mend six.brief --take 0.1,0.7 --hints always
expect "no such offer: an object" 2 "" '{"kind":"refusal","code":"offer","offers":"0.7","reason":"there is no offer 0.7: group 0 has 6 offers"}' \
    mend six.brief --take 0.7 --format json
expect "no such offer: a message" 2 "" "twire: error: there is no offer 0.7: group 0 has 6 offers" mend six.brief --take 0.7 --format gcc
expect "offers count from 1" 2 "" "refused offer 0.0" mend six.brief --take 0.0
expect "no such group" 2 "" "refused offer 1.1
hint: there is no offer 1.1: the plan has 1 group" mend six.brief --take 1.1 --hints always
expect "no such group of two" 2 "" "refused offer 4294967295.1
hint: there is no offer 4294967295.1: the plan has 2 groups" mend two.plan --take 4294967295.1 --hints always
expect "the same words" 2 "" "refused overlap 0.3,0.4
hint: offers 0.3 and 0.4 change the same words: take one of them" mend six.brief --take 0.2,0.3,0.4 --hints always
expect "the same words: an object" 2 "" '{"kind":"refusal","code":"overlap","offers":"0.4,0.3","reason":"offers 0.4 and 0.3 change the same words: take one of them"}' \
    mend six.brief --take 0.4,0.3 --format json
# (as many bytes as each of two others, so that the message has 350)
lines long.brief "brief 1" "message a write 0x10 any*100 ;" "message b write 0x10 any*200 ;" "message c write 0x10 any*250 ;" \
    "controller x a ;" "controller y b ;" "controller z c ;"
cp long.brief kept.brief
expect "edits that give no plan together" 2 "" "refused edited P5 line 2" mend long.brief --take 0.2,1.2
expect "edits that give no plan together: hints" 2 "" 'refused edited P5 line 2
hint: the edited texts give no plan: P5 line 2 of "long.brief"' mend long.brief --take 0.2,1.2 --hints always
expect "edits that give no plan together: an object" 2 "" '{"kind":"refusal","code":"edited","line":2,"reason":"the edited texts give no plan: P5 line 2 of \"long.brief\""}' \
    mend long.brief --take 0.2,1.2 --format json
expect "edits that give no plan together, in place" 2 "" "refused edited P5 line 2" mend long.brief --take 0.2,1.2 --in-place
same_file "edits that give no plan together: the file" kept.brief long.brief
lines first.brief "brief 1" "message a write 0x10 any*100 ;" "controller x a ;"
lines second.brief "brief 1" "message b write 0x10 any*200 ;" "message c write 0x10 any*250 ;" "controller y b ;" "controller z c ;"
expect "edits that give no plan together, of several files" 2 "" "refused edited P5 line 2 of first.brief" \
    mend second.brief --with first.brief --take 0.2,1.2
expect "edits that give no plan together, of several files: an object" 2 "" \
    '{"kind":"refusal","code":"edited","line":2,"file":"first.brief","reason":"the edited texts give no plan: P5 line 2 of \"first.brief\""}' \
    mend second.brief --with first.brief --take 0.2,1.2 --format json
expect "a plan that is refused" 2 "" "refused P3 line 2" mend --all - <<<$'brief 1\nmessage @ ;'
expect "a file that is not there" 2 "" "refused read" mend none
expect "no workers" 2 "" "refused workers" mend six.brief --workers 0
expect "too many workers" 2 "" "refused workers" mend six.brief --all --workers 9

# ---- command lines

refuses "no number" "the value for '--take <LIST>' is not of numbers of offers, as 0.2,3.1" mend six.brief --take first
for list in "" 0 0. .1 0.1, ,0.1 0.1,,0.2 0.1.2 +0.1 0.-1 "0.1 0.2" 0.4294967296; do
    refuses "--take '$list'" "the value for '--take <LIST>' is not of numbers of offers, as 0.2,3.1" mend six.brief "--take=$list"
done
refuses "--take and --all" "the argument '--take <LIST>' cannot be used with '--all'" mend six.brief --all --take 0.1
refuses "in place, of nothing" "'--in-place' and '--output' write what '--take' or '--all' takes: give one of these" mend six.brief --in-place
refuses "into a file, of nothing" "'--in-place' and '--output' write what '--take' or '--all' takes: give one of these" mend six.brief -o new.brief
refuses "in place and into a file" "the argument '--in-place' cannot be used with '--output <FILE>'" mend six.brief --all --in-place -o new.brief
refuses "standard input in place" "'--in-place' wants a file, and standard input is none" mend - --all --in-place
refuses "standard input in place by its path" "'--in-place' wants a file, and standard input is none" mend six.brief --with /dev/stdin --all --in-place
refuses "no plan" "the following required arguments were not provided:" mend
"$twire" mend --help >found
same "the status of the help" 0 $?
same_file "the help" "$top/docs/help/mend.txt" found

finish
