#!/usr/bin/env bash
# Runs twire with --explain: the lines for people below those of a report, and that the report without them is the exact one. It
# compares the exit status and all that is written.
source "$(dirname -- "$(readlink -f -- "${BASH_SOURCE[0]}")")/suite.bash" || exit 1

# alike NAME ARG..: with --explain the same run has the same status and the same standard error, and without the lines that
# begin with four spaces the same report. No line has more than 80 columns that the exact report has not, but for what is one
# line to be copied: a message as an offer would have it, and the command that makes the edits, which has the plan's path.
alike() {
    want_of "${@:2}"
    "$twire" "${@:2}" --explain >explained 2>err
    status=$?
    grep -v '^    ' explained >out
    compare "$1: the exact report is left"
    same "$1: 80 columns" "" "$(grep '^    ' explained | grep -v -e '^    message [^ ]* \(write\|read\) ' \
        -e '^    twire mend [^ ]* --all --in-place$' | grep '.\{81,\}')"
}

plan() {
    printf '%s\n' "$@" >p.plan
}

# ---- Unsafe pairs: a kind that meets another.

want 1 "pair 0 main/write_output service/probe_10: data against stop after 00100000l
    group 0, pair 0:
    bus                S 10 Wr A
    main/write_output  S 10 Wr A xxxxxxxx  next: a data bit
    service/probe_10   S 10 Wr A P         next: a STOP
    slot 9, UM10204 3.1.8: a data bit meets a STOP. Both send alike until here.
    main/write_output × service/probe_10: 1 pair, lengths differ
    0.1 let 'probe_10' read one byte, in place of a header alone:
    stop_meets_data.plan:23
    read 0010000 1 stop else stop ;
unsafe: 1 of 2 pairs
    to mend all pairs: 0.1; then check says 'safe: 2 pairs'
    to make these edits: twire mend stop_meets_data.plan --all --in-place" ""
cp "$examples/stop_meets_data.plan" .
run "a STOP meets a data bit" check --explain stop_meets_data.plan

plan 'plan 1' \
    'message w write 1001000 00000001 00000010 stop else stop else stop else stop ;' \
    'message r write 1001000 0000000x again read 1001000 2 stop else stop else stop else stop ;' \
    'controller a w ;' 'controller b r ;'
want 1 "pair 0 a/w b/r: data against restart after 10010000l00000001l
    group 0, pair 0:
    bus  S 48 Wr A 01 A
    a/w  S 48 Wr A 01 A 02        next: a data bit
    b/r  S 48 Wr A 0000000x A Sr  next: a repeated START
    slot 18, UM10204 3.1.8: a data bit meets a repeated START. Both send alike
    until here.
    b/r may send either bit before it in slot 16
    a/w × b/r: 1 pair, one goes on, one repeats START
    0.1 let 'r' never send 0x01 in data byte 1 (bit 0 is then 0, which the other
    side never sends): p.plan:3
    message r write 1001000 00000000 again read 1001000 2 stop else stop else stop else stop ;
    0.2 leave out what 'r' writes before it reads, if the device keeps its
    register pointer (others may have moved it): p.plan:3
    message r read 1001000 2 stop else stop ;
unsafe: 1 of 1 pairs
    to mend all pairs: 0.1; then check says 'safe: 1 pairs'
    to make these edits: twire mend p.plan --all --in-place" ""
run "a repeated START meets a data bit, after an open bit" check --explain p.plan

plan 'plan 1' 'message get read 1001000 1 stop else stop ;' 'controller a get ;' 'interrupt al 1001000 ;' \
    'interrupt second 1001000 ;'
want 1 "pair 0 a/get !al: answer against claim after 10010001
pair 1 a/get !second: answer against claim after 10010001
pair 2 !al !second: claim against claim after 10010001
    group 0, pair 0:
    bus    S 48 Rd
    a/get  S 48 Rd          next: a target's bit
    !al    S 48 Rd (waits)  next: a wait for the answer
    slot 8, the profile of interrupts: a target's bit meets a wait for the
    answer. Both send alike until here.
    a/get × !al: 1 pair, an interrupt has the same header
    0.1 give the interrupt 'al' an address that nothing else has: p.plan:4
    (mends groups 0, 2: 2 of 3 unsafe pairs)
    interrupt al 0001001 ;
    group 1, pair 1:
    bus      S 48 Rd
    a/get    S 48 Rd          next: a target's bit
    !second  S 48 Rd (waits)  next: a wait for the answer
    slot 8, the profile of interrupts: a target's bit meets a wait for the
    answer. Both send alike until here.
    a/get × !second: 1 pair, an interrupt has the same header
    1.1 give the interrupt 'second' an address that nothing else has: p.plan:5
    (mends groups 1, 2: 2 of 3 unsafe pairs)
    interrupt second 0001010 ;
    group 2, pair 2:
    bus      S 48 Rd
    !al      S 48 Rd (waits)  next: a wait for the answer
    !second  S 48 Rd (waits)  next: a wait for the answer
    slot 8, the profile of interrupts: a wait for the answer meets a wait for
    the answer. Both send alike until here.
    !al × !second: 1 pair, an interrupt has the same header
    2.1 give the interrupt 'al' an address that nothing else has: p.plan:4
    (mends groups 0, 2: 2 of 3 unsafe pairs)
    interrupt al 0001001 ;
    2.2 give the interrupt 'second' an address that nothing else has: p.plan:5
    (mends groups 1, 2: 2 of 3 unsafe pairs)
    interrupt second 0001010 ;
unsafe: 3 of 3 pairs
    to mend all pairs: 0.1, 1.1; then check says 'safe: 3 pairs'
    to make these edits: twire mend p.plan --all --in-place" ""
run "interrupts, which no never keeps away" check --explain p.plan

plan 'plan 2' 'message one read 1001000 1 again write 1001000 stop else stop else stop ;' \
    'message few read 1001000 1..3 stop else stop ;' 'controller a one ;' 'controller b few ;'
want 1 "pair 0 a/one b/few: restart against stop after 10010001lllllllll1
    group 0, pair 0:
    bus    S 48 Rd A 00 NA
    a/one  S 48 Rd A 00 NA Sr   next: a repeated START
    b/few  S 48 Rd A 00 A/NA P  next: a STOP
    slot 18, UM10204 3.1.8: a repeated START meets a STOP. Both send alike until
    here.
    b/few may send either bit before it in slot 17
    a/one × b/few: 1 pair, one ends, one repeats START
    0.1 let 'few' never read 1 byte: p.plan:3
    message few read 1001000 2..3 stop else stop ;
unsafe: 1 of 1 pairs
    to mend all pairs: 0.1; then check says 'safe: 1 pairs'
    to make these edits: twire mend p.plan --all --in-place" ""
run "reads that may end alike: the last acknowledge of one is open" check --explain p.plan

# ---- Groups, and how many of them are explained.

plan 'plan 2' 'message w write 1001000 00000001 stop else stop else stop ;' 'message p write 1001000 stop else stop ;' \
    'controller a w ;' 'controller b p ;' 'controller c p ;'
one="    group 0, 2 pairs, such as pair 0:
    bus  S 48 Wr A
    a/w  S 48 Wr A 01  next: a data bit
    b/p  S 48 Wr A P   next: a STOP
    slot 9, UM10204 3.1.8: a data bit meets a STOP. Both send alike until here.
    a/w × b/p, a/w × c/p: 2 pairs, lengths differ
    0.1 let 'p' read one byte, in place of a header alone: p.plan:3
    message p read 1001000 1 stop else stop ;
    0.2 keep the two sides apart by a lock outside the bus: 2 of 3 pairs are
    then not checked, more than half: p.plan:7, p.plan:8
    never a b ;
    never a c ;
unsafe: 2 of 3 pairs
    to mend all pairs: 0.1; then check says 'safe: 3 pairs'
    to make these edits: twire mend p.plan --all --in-place"
want 1 "pair 0 a/w b/p: data against stop after 10010000l
pair 1 a/w c/p: data against stop after 10010000l
$one" ""
run "pairs of several controllers are one group" check --explain --most 1 p.plan
want 1 "$one" ""
run "a group without its pairs" check --summary p.plan
run "the same where --explain is given too" check --explain --summary p.plan
want 1 "pair 0 a/w b/p: data against stop after 10010000l
pair 1 a/w c/p: data against stop after 10010000l
    not explained (--most 1 explains all groups):
    a/w × b/p, a/w × c/p: 2 pairs, lengths differ
unsafe: 2 of 3 pairs
    to mend all pairs: 0.1; then check says 'safe: 3 pairs'
    0.1 let 'p' read one byte, in place of a header alone: p.plan:3
    message p read 1001000 1 stop else stop ;
    to make these edits: twire mend p.plan --all --in-place" ""
run "none is explained where --most is 0" check --explain --most 0 p.plan
printf 'never a b ; never a c ;\n' >>p.plan
want 0 "safe: 1 pairs
    where targets acknowledge, decided in the header: 0, later: 0,
    at a read's end: 0; may end together: 1
    not checked: 2 of 3 pairs, which 'never' keeps apart" ""
run "the never items that are named make the plan safe" check --explain p.plan
run "a safe plan, without pairs" check --summary p.plan

plan 'plan 2' 'message w write 1001000 00000001 stop else stop else stop ;' \
    'message v write 1001000 00000010 stop else stop else stop ;' 'message p write 1001000 stop else stop ;' \
    'message q read 0010000 1 stop else stop ;' 'controller a w v ;' 'controller b p q ;' 'controller c p w ;' \
    'interrupt al 0010000 ;'
six="pair 0 a/w b/p: data against stop after 10010000l
pair 2 a/w c/p: data against stop after 10010000l
pair 5 a/v b/p: data against stop after 10010000l
pair 7 a/v c/p: data against stop after 10010000l
pair 11 b/p c/w: stop against data after 10010000l
pair 15 b/q !al: answer against claim after 00100001"
want 1 "$six
    not explained (--most 3 explains all groups):
    a/w × b/p, a/w × c/p, b/p × c/w: 3 pairs, lengths differ
    a/v × b/p, a/v × c/p: 2 pairs, lengths differ
    b/q × !al: 1 pair, an interrupt has the same header
unsafe: 6 of 18 pairs
    to mend all pairs: 0.1, 2.1; then check says 'safe: 18 pairs'
    0.1 let 'p' read one byte, in place of a header alone: p.plan:4 (mends
    groups 0, 1: 5 of 6 unsafe pairs)
    message p read 1001000 1 stop else stop ;
    2.1 give the interrupt 'al' an address that nothing else has: p.plan:9
    interrupt al 0001001 ;
    to make these edits: twire mend p.plan --all --in-place" ""
run "several pairs of two controllers, beside one with an interrupt" check --explain --most 0 p.plan
want 1 "$six
    group 0, 3 pairs, such as pair 0:
    bus  S 48 Wr A
    a/w  S 48 Wr A 01  next: a data bit
    b/p  S 48 Wr A P   next: a STOP
    slot 9, UM10204 3.1.8: a data bit meets a STOP. Both send alike until here.
    a/w × b/p, a/w × c/p, b/p × c/w: 3 pairs, lengths differ
    0.1 let 'p' read one byte, in place of a header alone: p.plan:4 (mends
    groups 0, 1: 5 of 6 unsafe pairs)
    message p read 1001000 1 stop else stop ;
    0.2 keep the two sides apart by a lock outside the bus: 12 of 18 pairs are
    then not checked, more than half: p.plan:10, p.plan:11, p.plan:12 (mends
    groups 0, 1: 5 of 6 unsafe pairs)
    never a b ;
    never a c ;
    never b c ;
    group 1, 2 pairs, such as pair 5:
    bus  S 48 Wr A
    a/v  S 48 Wr A 02  next: a data bit
    b/p  S 48 Wr A P   next: a STOP
    slot 9, UM10204 3.1.8: a data bit meets a STOP. Both send alike until here.
    a/v × b/p, a/v × c/p: 2 pairs, lengths differ
    1.1 let 'p' read one byte, in place of a header alone: p.plan:4 (mends
    groups 0, 1: 5 of 6 unsafe pairs)
    message p read 1001000 1 stop else stop ;
    1.2 keep the two sides apart by a lock outside the bus: 8 of 18 pairs are
    then not checked: p.plan:10, p.plan:11
    never a b ;
    never a c ;
    not explained (--most 3 explains all groups):
    b/q × !al: 1 pair, an interrupt has the same header
unsafe: 6 of 18 pairs
    to mend all pairs: 0.1, 2.1; then check says 'safe: 18 pairs'
    2.1 give the interrupt 'al' an address that nothing else has: p.plan:9
    interrupt al 0001001 ;
    to make these edits: twire mend p.plan --all --in-place" ""
run "the shortest wire first" check --explain --most 2 p.plan
printf 'never b a ;\n' >>p.plan
want 1 "pair 0 a/w c/p: data against stop after 10010000l
pair 3 a/v c/p: data against stop after 10010000l
pair 7 b/p c/w: stop against data after 10010000l
pair 11 b/q !al: answer against claim after 00100001
    not explained (--most 3 explains all groups):
    a/w × c/p, b/p × c/w: 2 pairs, lengths differ
    b/q × !al: 1 pair, an interrupt has the same header
    a/v × c/p: 1 pair, lengths differ
unsafe: 4 of 14 pairs
    to mend all pairs: 0.1, 1.1; then check says 'safe: 14 pairs'
    0.1 let 'p' read one byte, in place of a header alone: p.plan:4 (mends
    groups 0, 2: 3 of 4 unsafe pairs)
    message p read 1001000 1 stop else stop ;
    1.1 give the interrupt 'al' an address that nothing else has: p.plan:9
    interrupt al 0001001 ;
    to make these edits: twire mend p.plan --all --in-place
    not checked: 4 of 18 pairs, which 'never' keeps apart" ""
run "a never that the plan has is not named" check --explain --most 0 p.plan
printf 'never a c ; never b c ;\n' >>p.plan
want 1 "pair 3 b/q !al: answer against claim after 00100001
    not explained (--most 1 explains all groups):
    b/q × !al: 1 pair, an interrupt has the same header
unsafe: 1 of 6 pairs
    to mend all pairs: 0.1; then check says 'safe: 6 pairs'
    0.1 give the interrupt 'al' an address that nothing else has: p.plan:9
    interrupt al 0001001 ;
    to make these edits: twire mend p.plan --all --in-place
    not checked: 12 of 18 pairs, which 'never' keeps apart" ""
run "with these items the pair with the interrupt is left" check --explain --most 0 p.plan

# between NAME LINE..: the last line of each group, where a summary of p.plan explains all of them.
between() {
    call check --summary --most 100 p.plan
    sed -i '/ × /!d' out
    judge "$1" 1 "$(printf '    %s\n' "${@:2}")" ""
}

# A family of writes of one to three bytes and one of four to six; three plain writes, which meet in their second byte or
# third; a read at the address of an interrupt; and two writes that go on after a repeated START.
tails() {
    printf ' stop'
    printf ' else stop%.0s' $(seq "$1")
    printf ' ;'
}
any() {
    printf ' xxxxxxxx%.0s' $(seq "$1")
}
plan 'plan 1' "message a_1 write 1010000$(any 1)$(tails 2)" "message a_2 write 1010000$(any 2)$(tails 3)" \
    "message a_03 write 1010000$(any 3)$(tails 4)" "message b1 write 1010000$(any 4)$(tails 5)" \
    "message b2 write 1010000$(any 5)$(tails 6)" "message b12 write 1010000$(any 6)$(tails 7)" \
    "message p write 1010001$(any 2)$(tails 3)" "message q write 1010001$(any 1)$(tails 2)" \
    "message r write 1010001$(any 3)$(tails 4)" "message g read 1010010 1 stop else stop ;" \
    "message d write 1010011 again write 1010011$(any 1)$(tails 3)" \
    "message e write 1010011 again write 1010011$(any 2)$(tails 4)" \
    'controller left a_1 a_2 a_03 p q g d ;' 'controller right b1 b2 b12 p q r g e ;' 'interrupt s 1010010 ;'
between "families, bytes, frames and interrupts" \
    "left/a_* × right/b*: 9 pairs, lengths differ" \
    "left/g × !s, right/g × !s: 2 pairs, an interrupt has the same header" "left/p × right/q, left/q × right/p: 2 pairs, lengths differ" \
    "left/q × right/r: 1 pair, lengths differ" "left/p × right/r: 1 pair, lengths differ" \
    "left/d × right/e: 1 pair, lengths differ"
# In the first frame, and in the second.
plan 'plan 1' 'message m write 1010011 again write 1010011 xxxxxxxx stop else stop else stop else stop ;' \
    'message n write 1010011 again write 1010011 stop else stop else stop ;' \
    'message o write 1010011 stop else again write 1010011 stop else stop ;' 'controller a m ;' 'controller b n o ;'
between "one frame and another" "a/m × b/o: 1 pair, one ends, one repeats START" "a/m × b/n: 1 pair, lengths differ"
# Messages whose names are alike at different addresses: a group of each address. A message that is the only one of its family
# there has its own name.
plan 'plan 1' "message set_psu1 write 1011000 00000001$(any 1)$(tails 3)" \
    "message set_psu2 write 1011001 00100001$(any 1)$(tails 3)" "message probe1 write 1011000$(tails 1)" \
    "message probe2 write 1011001$(tails 1)" 'controller bmc set_psu1 set_psu2 ;' 'controller pch probe1 probe2 ;'
between "one address and another" "bmc/set_psu1 × pch/probe1: 1 pair, lengths differ" \
    "bmc/set_psu2 × pch/probe2: 1 pair, lengths differ"
# One address in the first frame, and two in the second.
plan 'plan 1' "message put1 write 1011000 again write 1011000$(any 1)$(tails 3)" \
    "message put2 write 1011000 again write 1011001$(any 1)$(tails 3)" \
    "message ask1 write 1011000 again write 1011000$(tails 2)" "message ask2 write 1011000 again write 1011001$(tails 2)" \
    'controller a put1 put2 ;' 'controller b ask1 ask2 ;'
between "addresses of the second frame" "a/put1 × b/ask1: 1 pair, lengths differ" "a/put2 × b/ask2: 1 pair, lengths differ"
# Of a family one message meets another one.
plan 'plan 1' "message get1 write 1010000 00000001 again read 1010000 1$(tails 3)" \
    "message get10 write 1010000 00001010 again read 1010000 1$(tails 3)" "message put write 1010000 00001010$(any 1)$(tails 3)" \
    'controller a get1 get10 ;' 'controller b put ;'
between "the only one of its family" "a/get10 × b/put: 1 pair, one goes on, one repeats START"
# Each group that is not explained has its line, in the order of the groups.
plan 'plan 1' "message get1 write 1010000 00000001 again read 1010000 1$(tails 3)" "message put write 1010000$(any 2)$(tails 3)" \
    "message page_1 write 1010001$(any 1)$(tails 2)" "message page_2 write 1010001$(any 2)$(tails 3)" \
    "message page_3 write 1010001$(any 3)$(tails 4)" 'controller a get1 page_1 page_2 page_3 ;' \
    'controller b put page_1 page_2 page_3 ;'
want 1 "    group 0, 6 pairs, such as pair 6:
    bus       S 51 Wr A 00 A
    a/page_1  S 51 Wr A xxxxxxxx A P         next: a STOP
    b/page_2  S 51 Wr A xxxxxxxx A xxxxxxxx  next: a data bit
    slot 18, UM10204 3.1.8: a STOP meets a data bit. Both send alike until here.
    a/page_1 may send either bit before it in slot 9..16
    b/page_2 may send either bit before it in slot 9..16
    a/page_* × b/page_*: 6 pairs, lengths differ
    no edit was found that mends it
    not explained (--most 2 explains all groups):
    a/get1 × b/put: 1 pair, one goes on, one repeats START
unsafe: 7 of 16 pairs
    to mend 1 of 7 unsafe pairs: 1.1; then check says 'unsafe: 6 of 16 pairs'
    1.1 let 'put' never send 0x00 to 0x7F in data byte 1 (bit 7 is then 1, which
    the other side never sends): p.plan:3
    message put write 1010000 1xxxxxxx$(any 1)$(tails 3)
    to make these edits: twire mend p.plan --all --in-place" ""
run "a line of each group that is not explained" check --summary --most 1 p.plan
# Whoever sends them, on either side.
plan 'plan 1' 'message w write 1001000 00000001 stop else stop else stop ;' 'message p write 1001000 stop else stop ;' \
    'controller a w p ;' 'controller b w p ;' 'controller c w p ;' 'controller d w p ;' 'controller e w p ;'
want 1 "    a/w × b/p, a/w × c/p, a/w × d/p, a/w × e/p and 16 more: 20 pairs, lengths
    differ" ""
"$twire" check --summary p.plan >explained 2>err
status=$?
grep -A 1 ' × ' explained | sed '/^unsafe/d' >out
compare "two messages of five controllers"

# ---- What mends each group.

# mends NAME TEXT: what is offered for the groups of p.plan, or of another FILE, and what stands below the count of unsafe pairs.
mends() {
    call check --summary --most 100 "${3:-p.plan}"
    awk '/^    group / { on = 0 } on; / × / { on = 1 }' out >offered
    mv offered out
    judge "$1" 1 "$2" ""
}

# Each two of these meet after one byte or two. The second stands on both sides, so that no edit of messages is theirs.
plan 'plan 1' "message w1 write 1010000$(any 1)$(tails 2)" "message w2 write 1010000$(any 1) 0xxxxxxx$(tails 3)" \
    "message w3 write 1010000$(any 1) 00000001$(any 1)$(tails 4)" 'message far read 0100000 1 stop else stop ;' \
    'controller a w1 w2 w3 ;' 'controller b w1 w2 w3 ;' 'controller c far ;'
mends "a message on both sides: nothing but 'never'" "\
    0.1 keep the two sides apart by a lock outside the bus: 9 of 15 pairs are
    then not checked, more than half: p.plan:1, p.plan:9
    plan 2
    never a b ;
unsafe: 6 of 15 pairs
    to mend all pairs: 0.1; then check says 'safe: 6 pairs' (9 are not checked)
    to make these edits: twire mend p.plan --all --in-place"
# Without another pair there is nothing to check then, and so no offer.
sed -i '/far/d' p.plan
mends "a message on both sides, of the only two controllers" "\
    no edit was found that mends it
unsafe: 6 of 9 pairs
    no edit was found that mends a group"
# Bits of the first two bytes are open in both, or in one of them. A byte more in the shorter one would make it clash with what
# is as long as it now. The list has no two edits of one byte: 'w2' cannot be 0 there for the one, and 1 for the other.
plan 'plan 1' "message w1 write 1010000$(any 2)$(tails 3)" "message w2 write 1010000$(any 3)$(tails 4)" \
    "message v write 1010000 0000xxxx 1xxxxxx0$(tails 3)" "message probe write 1010001$(tails 1)" \
    "message put write 1010001$(any 1)$(tails 2)" 'controller a w2 probe ;' 'controller b v put ;' 'controller c w1 ;'
mends "three groups, each with edits of its own" "\
    0.1 let 'probe' read one byte, in place of a header alone: p.plan:5
    message probe read 1010001 1 stop else stop ;
    0.2 keep the two sides apart by a lock outside the bus: 4 of 8 pairs are
    then not checked: p.plan:1, p.plan:10 (mends groups 0, 1: 2 of 3 unsafe
    pairs)
    plan 2
    never a b ;
    1.1 let 'w2' never send 0x00 to 0x7F in data byte 1 (bit 7 is then 1, which
    the other side never sends): p.plan:3
    message w2 write 1010000 1xxxxxxx$(any 2)$(tails 4)
    1.2 let bit 3 of data byte 1 be 0 in 'w2' and 1 in 'v': p.plan:3, p.plan:4
    message w2 write 1010000 xxxx0xxx$(any 2)$(tails 4)
    message v write 1010000 00001xxx 1xxxxxx0$(tails 3)
    1.3 keep the two sides apart by a lock outside the bus: 4 of 8 pairs are
    then not checked: p.plan:1, p.plan:10 (mends groups 0, 1: 2 of 3 unsafe
    pairs)
    plan 2
    never a b ;
    2.1 let bit 7 of data byte 1 be 0 in 'w2' and 1 in 'w1': p.plan:2, p.plan:3
    message w1 write 1010000 1xxxxxxx$(any 1)$(tails 3)
    message w2 write 1010000 0xxxxxxx$(any 2)$(tails 4)
    2.2 keep the two sides apart by a lock outside the bus: 2 of 8 pairs are
    then not checked: p.plan:1, p.plan:10
    plan 2
    never a c ;
unsafe: 3 of 8 pairs
    to mend all pairs: 0.1, 1.1, 2.2; then check says 'safe: 6 pairs' (2 are not
    checked)
    to make these edits: twire mend p.plan --all --in-place"
# After a NACK of the first byte one repeats START and the other ends: no bit after it mends the pair, and no byte more.
plan 'plan 1' "message m write 101xxxx$(any 2) stop else stop else again write 1010000 stop else stop else stop ;" \
    "message n write 1010xxx$(any 3)$(tails 4)" 'controller a m ;' 'controller b n ;'
mends "another fault after a NACK" "\
    0.1 let 'm' never send 0x50 to 0x57 in the address (bit 3 is then 1, which
    the other side never sends): p.plan:2
    message m write 1011xxx$(any 2) stop else stop else again write 1010000 stop else stop else stop ;
    0.2 let bit 2 of the address be 0 in 'm' and 1 in 'n': p.plan:2, p.plan:3
    message m write 101x0xx$(any 2) stop else stop else again write 1010000 stop else stop else stop ;
    message n write 10101xx$(any 3)$(tails 4)
unsafe: 1 of 1 pairs
    to mend all pairs: 0.1; then check says 'safe: 1 pairs'
    to make these edits: twire mend p.plan --all --in-place"
# Counts below all of the other side, and above: of the second side, since the first one has but one count.
plan 'plan 2' 'message two read 1001000 2 again write 1001000 stop else stop else stop ;' \
    'message few read 1001000 1..4 stop else stop ;' 'controller a two ;' 'controller b few ;'
mends "counts below and above" "\
    0.1 let 'few' never read 2 to 4 bytes: p.plan:3
    message few read 1001000 1 stop else stop ;
    0.2 let 'few' never read 1 to 2 bytes: p.plan:3
    message few read 1001000 3..4 stop else stop ;
unsafe: 1 of 1 pairs
    to mend all pairs: 0.1; then check says 'safe: 1 pairs'
    to make these edits: twire mend p.plan --all --in-place"
# Of two bytes the first is open in both, and the second known in one: what is known comes before what is open in both. That a
# pointer is left out comes after both, and a place of a number of bytes is parted from the others.
printf '%s\n' 'brief 1' 'message put write 0x50 any*4 ; # four bytes' 'message get write 0x50 any*2 0x7f read 0x50 1 ;' \
    'controller a put ;' 'controller b get ;' >p.brief
mends "known before open, and then a pointer" "\
    0.1 let 'put' never send 0x00 to 0x7F in data byte 3 (bit 7 is then 1, which
    the other side never sends): p.brief:2
    message put write 0x50 any*2 0b1xxxxxxx any ; # four bytes
    0.2 let bit 7 of data byte 1 be 0 in 'put' and 1 in 'get': p.brief:2,
    p.brief:3
    message put write 0x50 0b0xxxxxxx any*3 ; # four bytes
    message get write 0x50 0b1xxxxxxx any 0x7f read 0x50 1 ;
    0.3 leave out what 'get' writes before it reads, if the device keeps its
    register pointer (others may have moved it): p.brief:3
    message get read 0x50 1 ;
unsafe: 1 of 1 pairs
    to mend all pairs: 0.1; then check says 'safe: 1 pairs'
    to make these edits: twire mend p.brief --all --in-place" p.brief
# Four of five offers. Each side has a bit that is known in the other.
printf '%s\n' 'brief 1' 'message set write 0x50 0b0xxxxxx1 any ;' 'message get write 0x50 0bx0xxxxxx read 0x50 1 ;' \
    'message far read 0x20 1 ;' 'controller a set far ;' 'controller b get ;' >p.brief
mends "five offers, of which four are shown" "\
    0.1 let 'set' never send 0b00xxxxx1 in data byte 1 (bit 6 is then 1, which
    the other side never sends): p.brief:2
    message set write 0x50 0b01xxxxx1 any ;
    0.2 let 'get' never send 0x00 to 0x3F in data byte 1 (bit 7 is then 1, which
    the other side never sends): p.brief:3
    message get write 0x50 0b10xxxxxx read 0x50 1 ;
    0.3 let bit 5 of data byte 1 be 0 in 'set' and 1 in 'get': p.brief:2,
    p.brief:3
    message set write 0x50 0b0x0xxxx1 any ;
    message get write 0x50 0bx01xxxxx read 0x50 1 ;
    0.4 leave out what 'get' writes before it reads, if the device keeps its
    register pointer (others may have moved it): p.brief:3
    message get read 0x50 1 ;
    and 1 more offer
unsafe: 1 of 2 pairs
    to mend all pairs: 0.1; then check says 'safe: 2 pairs'
    to make these edits: twire mend p.brief --all --in-place" p.brief

# The same with known bits alone: nothing mends it but a 'never', after which no pair would be left.
plan 'plan 1' "message m write 1010000 00000001 00000001 stop else stop else again write 1010000 stop else stop else stop ;" \
    "message n write 1010000 00000001 00000001 00000001$(tails 4)" 'controller a m ;' 'controller b n ;'
mends "nothing mends the only pair" "\
    no edit was found that mends it
unsafe: 1 of 1 pairs
    no edit was found that mends a group"
# Beside another group, which a read mends, or as many bytes. A 'plan 1' has no 'never'.
sed -i "2i message put write 1010001$(any 1)$(tails 2)\nmessage probe write 1010001$(tails 1)\nmessage far read 0100000 1 stop else stop ;" p.plan
sed -i 's/^controller a m/& put far/; s/^controller b n/& probe/' p.plan
echo 'controller c far ;' >>p.plan
mends "no edit of messages mends each pair" "\
    0.1 let 'probe' read one byte, in place of a header alone: p.plan:3
    message probe read 1010001 1 stop else stop ;
    0.2 keep the two sides apart by a lock outside the bus: 6 of 11 pairs are
    then not checked, more than half: p.plan:1, p.plan:10 (mends groups 0, 1: 2
    of 2 unsafe pairs)
    plan 2
    never a b ;
    1.1 keep the two sides apart by a lock outside the bus: 6 of 11 pairs are
    then not checked, more than half: p.plan:1, p.plan:10 (mends groups 0, 1: 2
    of 2 unsafe pairs)
    plan 2
    never a b ;
unsafe: 2 of 11 pairs
    to mend all pairs: 0.1, 0.2; then check says 'safe: 5 pairs' (6 are not
    checked)
    to make these edits: twire mend p.plan --all --in-place"
sed 's/^plan 1/plan 2/' p.plan >q.plan
echo 'never a b ;' >>q.plan
want 0 "safe: 5 pairs" ""
run "the item that is offered, where the first line became 'plan 2'" check q.plan
# What mends all pairs does not depend on how many groups are explained. Its offers that no group shows follow.
last="to mend all pairs: 0.1, 0.2; then check says 'safe: 5 pairs' (6 are not
    checked)"
made="    to make these edits: twire mend p.plan --all --in-place"
want 1 "    $last
$made" ""
call check --summary --most 1 p.plan
sed -i '1,/^unsafe/d' out
compare "the last lines with --most 1"
want 1 "    $last
    0.1 let 'probe' read one byte, in place of a header alone: p.plan:3
    message probe read 1010001 1 stop else stop ;
    0.2 keep the two sides apart by a lock outside the bus: 6 of 11 pairs are
    then not checked, more than half: p.plan:1, p.plan:10 (mends groups 0, 1: 2
    of 2 unsafe pairs)
    plan 2
    never a b ;
$made" ""
call check --summary --most 0 p.plan
sed -i '1,/^unsafe/d' out
compare "the last lines with --most 0"

# ---- Safe plans.

want 0 "safe: 2 pairs
    where targets acknowledge, decided in the header: 0, later: 1,
    at a read's end: 0; may end together: 1" ""
run "two writers: one pair ends alike, one parts in a data byte" check --explain "$examples/two_writers.plan"
plan 'plan 1' 'message short read 1001000 1 stop else stop ;' 'message long read 1001000 2 stop else stop ;' \
    'message other read 1001001 2 stop else stop ;' 'message spare write 1001000 stop else stop ;' \
    'controller a short ;' 'controller b long ;' 'controller c other ;'
want 0 "safe: 3 pairs
    where targets acknowledge, decided in the header: 2, later: 0,
    at a read's end: 1; may end together: 0
    not checked: 1 message that no controller lists: spare" ""
run "a read's end, headers, and a message that nobody sends" check --explain p.plan
plan 'plan 1'
want 0 "safe: 0 pairs
    where targets acknowledge, decided in the header: 0, later: 0,
    at a read's end: 0; may end together: 0
    no two participants may start together, so nothing was checked" ""
run "a plan without pairs" check --explain p.plan

# ---- Certificates.

"$twire" certify "$examples/two_writers.plan" >two.cert
want 0 "accepted safe" ""
run "nothing is said below an acceptance" verify --explain "$examples/two_writers.plan" two.cert
sed 's/P6/P5/' two.cert >wrong.cert
want 2 "wrong C5 pair 1
    main/write_limit   S 48 Wr A 03  next: a data bit
    guard/write_alarm  S 48 Wr A 01  next: a data bit
    slot 9, word 2 of its proof: no bit of this number is known in both and
    different there
    main/write_limit × guard/write_alarm: what the certificate says is not so
    a plan that was changed wants a new certificate: twire certify PLAN" ""
run "a proof that names another bit" verify --explain "$examples/two_writers.plan" wrong.cert
sed '3d' two.cert >wrong.cert
want 2 "wrong C2
    the plan has 2 pairs, and the certificate has 1 lines of proofs
    its second line says that it has 2
    so it is no whole certificate: twire certify PLAN writes one" ""
run "a proof too few" verify --explain "$examples/two_writers.plan" wrong.cert
printf 'cert 1\npairs 1\n.\n' >wrong.cert
want 2 "wrong C2
    the plan has 2 pairs, and the certificate has 1 lines of proofs
    a plan that was changed wants a new certificate: twire certify PLAN" ""
run "a certificate of a plan with fewer pairs" verify --explain "$examples/two_writers.plan" wrong.cert
sed 's/^cert 1/cert 2/' two.cert >wrong.cert
want 2 "wrong C1 line 1
    a plan that was changed wants a new certificate: twire certify PLAN" ""
run "a certificate of another form" verify --explain "$examples/two_writers.plan" wrong.cert

# breaks PROOF WORD SLOT BYTES NEXT REASON: below a certificate with this proof of one pair stand the bytes of both up to where
# it breaks off, and why.
breaks() {
    printf 'cert 1\npairs 1\n%s\n' "$1" >c.cert
    want 2 "wrong C5 pair 0
    a/one  $4  next: $5
    b/two  $4  next: $5
$(echo "slot $3, word $2 of its proof: $6 " | fold -s -w 77 | sed 's/^/    /; s/ $//')
    a/one × b/two: what the certificate says is not so
    a plan that was changed wants a new certificate: twire certify PLAN" ""
    run "the proof $1" verify --explain p.plan c.cert
}
tails='stop else stop else stop else stop'
plan 'plan 1' "message one write 1001000 0000000x again read 1001000 1 $tails ;" \
    "message two write 1001000 0000000x again read 1001000 2 $tails ;" 'controller a one ;' 'controller b two ;'
printf 'cert 1\npairs 1\nB B S D R . . .\n' >c.cert
want 0 "accepted safe" ""
run "the proof that there is" verify --explain p.plan c.cert
again="the two do not both send a repeated START there"
both="S 48 Wr A 0000000x A"
bit="a data bit"
breaks "D B S D R . . ." 1 0 "S 48 Wr" "$bit" "the two do not both read there"
breaks "B B B . . . ." 3 18 "$both Sr" "a repeated START" "the two do not both write a byte there"
breaks "B S . ." 2 9 "S 48 Wr A 0000000x" "$bit" "$again"
breaks "B . ." 2 9 "S 48 Wr A 0000000x" "$bit" "the two do not both send a STOP there"
breaks "B B S B R . . ." 4 19 "$both Sr 48 Rd" "$bit" "the two do not both write a byte there"
breaks "B B S P7 . ." 4 19 "$both Sr 48 Rd" "$bit" "no bit of this number is known in both and different there"
breaks "B B S D . . . ." 5 28 "$both Sr 48 Rd A" "a target's bit" "the two never read the same number of bytes"
# After a word that proves its part come the answers that are no acknowledges, of the last byte first.
breaks "B B S D R S . . ." 6 28 "$both Sr 48 Rd NA P" "a STOP" "$again"
breaks "B B S D R . S . ." 7 18 "S 48 Wr A 0000000x NA P" "a STOP" "$again"
breaks "B B S D R . . S ." 8 9 "S 48 Wr NA P" "a STOP" "$again"
breaks "R" 1 0 "S 48 Wr" "$bit" "a proof has no such word there"
plan 'plan 1' "message one write 1001000 0000000x again read 1001000 2 $tails ;" \
    "message two write 1001000 0000000x again read 1001000 2 $tails ;" 'controller a one ;' 'controller b two ;'
breaks "B B S D R . . ." 5 28 "$both Sr 48 Rd A" "a target's bit" "both may read the same number of bytes"
breaks "B B S D S . . . ." 5 46 "$both Sr 48 Rd A 00 A 00 NA P" "a STOP" "$again"

# A certificate of a fault: its pair, as a group has its example.
printf '%s\n' 'cert 1' 'fault 0 00100000l data stop' >fault.cert
named="accepted unsafe
    pair 0:
    bus                S 10 Wr A
    main/write_output  S 10 Wr A xxxxxxxx  next: a data bit
    service/probe_10   S 10 Wr A P         next: a STOP
    slot 9, UM10204 3.1.8: a data bit meets a STOP. Both send alike until here.
    main/write_output × service/probe_10: lengths differ
    a certificate names one pair; all, in groups: twire check --explain PLAN"
want 1 "$named" ""
run "a certificate of a fault" verify --explain "$examples/stop_meets_data.plan" fault.cert
run "a rehearsal of a plan that is not safe" bench --explain "$examples/stop_meets_data.plan" fault.cert service/probe_10
run "the same without a certificate" bench --explain --certify "$examples/stop_meets_data.plan" service/probe_10
# The fault that it names need not be the first one of its pair.
plan 'plan 2' 'message few read 1001000 1..2 stop else stop ;' 'message one read 1001000 1 again write 1001000 stop else stop else stop ;' \
    'controller a few ;' 'controller b one ;'
printf '%s\n' 'cert 1' 'fault 0 10010001lhlhlhlhl1 stop restart' >c.cert
want 1 "accepted unsafe
    pair 0:
    bus    S 48 Rd A aa NA
    a/few  S 48 Rd A aa A/NA P  next: a STOP
    b/one  S 48 Rd A aa NA Sr   next: a repeated START
    slot 18, UM10204 3.1.8: a STOP meets a repeated START. Both send alike until
    here.
    a/few may send either bit before it in slot 17
    a/few × b/one: one ends, one repeats START
    a certificate names one pair; all, in groups: twire check --explain PLAN" ""
run "another fault of the same pair" verify --explain p.plan c.cert

# ---- A rehearsal.

want 0 "wire 10010000l00000001l00100000ls
    slot               0          9          18
    bus                48 Wr    A 01       A 20       A P
    wire               10010000 l 00000001 l 00100000 l s
    main/write_limit   10010000 . 0000001  lost in slot 15
    guard/write_alarm  10010000 . 00000001 . 00100000 . s  won
won guard/write_alarm" ""
run "who loses where" bench --explain "$examples/two_writers.plan" --certify main/write_limit,guard/write_alarm \
    --rest 0

# Seven bytes, of which five fit beside these labels. The repeated START has a column of its own.
plan 'plan 1' 'message fetch_some write 1001000 00000001 again read 1001000 4 stop else stop else stop else stop ;' \
    'message warn write 1001000 00000011 stop else stop else stop ;' 'controller main fetch_some ;' \
    'controller guard warn ;'
want 0 "wire 10010000l00000001lr10010001lllllllll0llllllll0llllllll0llllllll1s
    slot             0          9             19         28         37
    bus              48 Wr    A 01       A Sr 48 Rd    A 00       A 00       A
    wire             10010000 l 00000001 l r  10010001 l llllllll 0 llllllll 0
    main/fetch_some  10010000 . 00000001 . r  10010001 . ........ 0 ........ 0
    guard/warn       10010000 . 0000001  lost in slot 15
    slot             46         55
    bus              00       A 00       NA P
    wire             llllllll 0 llllllll 1  s
    main/fetch_some  ........ 0 ........ 1  s  won
won main/fetch_some" ""
run "a wire in two blocks, with a repeated START" bench --explain p.plan --certify main/fetch_some,guard/warn --rest 0

# ---- Captures.

want 0 "5-160 service/probe_10
    bus  S 10 Wr A P
1 transactions, 0 unexplained" ""
run "the bytes of a transaction" capture --explain "$examples/stop_meets_data.plan" "$examples/stop_meets_data.vcd"
plan 'plan 1' 'message m write 1001000 00000001 stop else stop else stop ;' \
    'message n write 0010000 00000001 00000000 stop else stop else stop else stop ;' \
    'message o write 0010000 1xxxxxxx stop else stop else stop ;' 'message q read 0010000 1 stop else stop ;' \
    'controller a m ;' 'controller b n o q ;'
want 1 "5-160 unexplained
    bus  S 10 Wr A P
    b/n  S 10 Wr A 01        next: a data bit
    b/o  S 10 Wr A 1xxxxxxx  next: a data bit
    b/q  S 10 Rd             next: a data bit
    slot 9, b/n: it sends 0, the bus has a STOP
    slot 9, b/o: it sends 1, the bus has a STOP
    slot 7, b/q: it sends 1, the bus has 0
1 transactions, 1 unexplained" ""
run "who goes along furthest with a transaction that nobody explains" capture --explain p.plan \
    "$examples/stop_meets_data.vcd"
"$top/tools/dump" 00100000000 >d.vcd
want 1 "5-190 unexplained
    bus  S 10 Wr A 0b00(cut) P
    b/n  S 10 Wr A 01        next: a data bit
    b/o  S 10 Wr A 1xxxxxxx  next: a data bit
    b/q  S 10 Rd             next: a data bit
    the STOP comes after 2 of a byte's nine bits: is it a glitch?
    slot 11, b/n: it sends 0, the bus has a STOP
    slot 9, b/o: it sends 1, the bus has 0
    slot 7, b/q: it sends 1, the bus has 0
1 transactions, 1 unexplained" ""
run "a STOP in the middle of a byte" capture --explain p.plan d.vcd
"$top/tools/dump" 00100000 >d.vcd
want 1 "5-145 unexplained
    bus  S 10 Wr(cut) P
    b/n  S 10 Wr  next: a target's bit
    b/o  S 10 Wr  next: a target's bit
    b/q  S 10 Rd  next: a data bit
    the STOP comes after 8 of a byte's nine bits: is it a glitch?
    slot 8, b/n: a target answers it, the bus has a STOP
    slot 8, b/o: a target answers it, the bus has a STOP
    slot 7, b/q: it sends 1, the bus has 0
1 transactions, 1 unexplained" ""
run "a STOP after a whole byte, in the place of its acknowledge" capture --explain p.plan d.vcd
"$top/tools/dump" 00100000010r001000010 >d.vcd
want 1 "5-345 unexplained
    bus  S 10 Wr A 0b10(cut) Sr 10 Rd A P
    b/o  S 10 Wr A 1xxxxxxx  next: a data bit
    b/n  S 10 Wr A 01        next: a data bit
    b/q  S 10 Rd             next: a data bit
    the repeated START comes after 2 of a byte's nine bits: is it a glitch?
    slot 11, b/o: it sends a bit, the bus has a repeated START
    slot 9, b/n: it sends 0, the bus has 1
    slot 7, b/q: it sends 1, the bus has 0
1 transactions, 1 unexplained" ""
run "a repeated START in the middle of a byte" capture --explain p.plan d.vcd
"$top/tools/dump" 001000000r001000010101010101 >d.vcd
want 1 "5-450 unexplained
    bus  S 10 Wr A Sr 10 Rd A aa NA P
    b/n  S 10 Wr A 01        next: a data bit
    b/o  S 10 Wr A 1xxxxxxx  next: a data bit
    b/q  S 10 Rd             next: a data bit
    slot 9, b/n: it sends 0, the bus has a repeated START
    slot 9, b/o: it sends 1, the bus has a repeated START
    slot 7, b/q: it sends 1, the bus has 0
1 transactions, 1 unexplained" ""
run "a repeated START and a read" capture --explain p.plan d.vcd

# SDA is LOW for a moment while SCL is HIGH: a START and a STOP. SCL falls, which ends a HIGH period in which SDA moved, and
# then two bits come on a bus that is free by now.
{
    printf '%s\n' '$var wire 1 ! scl $end' '$var wire 1 " sda $end' '$enddefinitions $end' '#0 1! 1"' '#10 0"' '#11 1"'
    printf '#%s 0!\n#%s 1!\n' 20 30 40 50 60 70
} >d.vcd
want 1 "10-11 unexplained
    bus  S P
    a/m  S 48 Wr  next: a data bit
    b/n  S 10 Wr  next: a data bit
    b/o  S 10 Wr  next: a data bit
    slot 0, a/m: it sends 1, the bus has a STOP
    slot 0, b/n: it sends 0, the bus has a STOP
    slot 0, b/o: it sends 0, the bus has a STOP
    2 bits follow on a free bus: is the STOP a glitch?
1 transactions, 1 unexplained" ""
run "a glitch" capture --explain p.plan d.vcd

# ---- Without the lines for people the report is the exact one.

for it in "$examples"/*.plan; do
    name=${it##*/}
    alike "check $name" check "$it"
    alike "order $name" order "$it"
    "$twire" certify "$it" >c.cert
    alike "verify $name" verify "$it" c.cert
    sed '3s/.*/./' c.cert >wrong.cert
    alike "verify $name, another proof" verify "$it" wrong.cert
    for vcd in "$examples"/*.vcd; do
        alike "capture ${vcd##*/} by $name" capture "$it" "$vcd"
    done
    labels=$("$twire" check "$it" | sed -n 's/^pair [0-9]* \([^ ]*\) .*/\1/p' | sort -u)
    for label in $labels main/write_limit service/probe_10; do
        alike "bench $label of $name" bench "$it" c.cert "$label"
    done
done

# ---- A brief: its labels, its lines, and items that it can have.

brief() {
    printf '%s\n' "$@" >board.brief
}
brief 'brief 1' 'device sensor 0x48 ;' 'message set write sensor 0x01 any ;' \
    'message get write sensor 0x01 read sensor 1 ;' 'message page write 0x50 any*1..2 ;' \
    'controller bmc set page ;' 'controller pch get page ;' 'never bmc/set pch/page ;'
want 1 "pair 2 bmc/page_1 pch_page/page_2: stop against data after 10100000l00000000l
pair 4 bmc/page_2 pch_page/page_1: data against stop after 10100000l00000000l
pair 6 bmc_set/set pch/get: data against restart after 10010000l00000001l
    group 0, 2 pairs, such as pair 2:
    bus         S 50 Wr A 00 A
    bmc/page_1  S 50 Wr A xxxxxxxx A P         next: a STOP
    pch/page_2  S 50 Wr A xxxxxxxx A xxxxxxxx  next: a data bit
    slot 18, UM10204 3.1.8: a STOP meets a data bit. Both send alike until here.
    bmc/page_1 may send either bit before it in slot 9..16
    pch/page_2 may send either bit before it in slot 9..16
    see board.brief:5
    bmc/page_* × pch/page_*: 2 pairs, lengths differ
    0.1 keep the two sides apart by a lock outside the bus: 2 of 7 pairs are
    then not checked: board.brief:9, board.brief:10
    never bmc/page_1 pch/page_2 ;
    never bmc/page_2 pch/page_1 ;
    group 1, pair 6:
    bus      S 48 Wr A 01 A
    bmc/set  S 48 Wr A 01 A xxxxxxxx  next: a data bit
    pch/get  S 48 Wr A 01 A Sr        next: a repeated START
    slot 18, UM10204 3.1.8: a data bit meets a repeated START. Both send alike
    until here.
    see board.brief:3 and board.brief:4
    bmc/set × pch/get: 1 pair, one goes on, one repeats START
    1.1 leave out what 'get' writes before it reads, if the device keeps its
    register pointer (others may have moved it): board.brief:4
    message get read sensor 1 ;
    1.2 keep the two sides apart by a lock outside the bus: 1 of 7 pairs is then
    not checked: board.brief:9
    never bmc/set pch/get ;
unsafe: 3 of 7 pairs
    to mend all pairs: 1.2, 0.1; then check says 'safe: 4 pairs' (3 are not
    checked)
    to make these edits: twire mend board.brief --all --in-place
    not checked: 2 of 9 pairs, which 'never' keeps apart" ""
run "a brief with a controller that is split, and with a family" check --explain board.brief
alike "a brief" check board.brief
printf 'never bmc/page_1 pch/page_2 ; never bmc/page_2 pch/page_1 ; never bmc/set pch/get ;\n' >>board.brief
want 0 "safe: 4 pairs
    where targets acknowledge, decided in the header: 2, later: 0,
    at a read's end: 0; may end together: 2
    not checked: 5 of 9 pairs, which 'never' keeps apart" ""
run "the items that are offered mend the brief" check --explain board.brief

# The family of a brief, and messages whose names are alike beside it.
brief 'brief 1' 'message page write 0x50 any*1..3 ;' 'message page_4 write 0x50 any*4 ; message page_5 write 0x50 any*5 ;' \
    'controller bmc page ;' 'controller pch page_4 page_5 ; controller seq page_2 ;'
want 1 "    bmc/page_* × pch/page_*, pch/page_* × seq/page_2: 8 pairs, lengths differ
    bmc/page_* × seq/page_2: 2 pairs, lengths differ" ""
call check --summary --most 100 board.brief
sed -i '/ × /!d' out
compare "a family and messages that are alike"

# kept NAME TEXT: what is offered for the groups of board.brief of the kind 'never', and what stands below the count of unsafe
# pairs.
kept() {
    call check --summary --most 100 board.brief
    awk '/^    (group |[0-9]+\.[0-9]+ |and [0-9]+ more)/ { on = 0 } /^    [0-9]+\.[0-9]+ keep / { on = 1 } /^unsafe/ { on = 1 } on' out \
        >offered
    mv offered out
    judge "$1" 1 "$2" ""
}

# Families are named by their labels, and controllers of one message themselves. Two families with few unsafe pairs have an item for
# each. In the list a pointer that is left out comes last, though it mends two groups.
brief 'brief 1' 'message page write 0x50 any*1..3 ;' 'message get write 0x50 any read 0x50 1 ;' \
    'controller bmc page get ;' 'controller pch page ;' 'controller seq get ;' 'never bmc/page_3 pch/page_1 ;'
kept "many pairs of a brief" "\
    0.2 keep the two sides apart by a lock outside the bus: 6 of 18 pairs are
    then not checked: board.brief:8, board.brief:9, board.brief:10,
    board.brief:11, board.brief:12, board.brief:13
    never bmc/page_2 seq ;
    never bmc/page_3 seq ;
    never bmc/get pch/page_2 ;
    never bmc/get pch/page_3 ;
    # and 2 lines more
    1.1 keep the two sides apart by a lock outside the bus: 8 of 18 pairs are
    then not checked: board.brief:8
    never bmc/page pch/page ;
    2.2 keep the two sides apart by a lock outside the bus: 3 of 18 pairs are
    then not checked: board.brief:8, board.brief:9, board.brief:10
    never bmc/page_1 seq ;
    never bmc/get pch/page_1 ;
    never pch/page_1 seq ;
unsafe: 14 of 18 pairs
    to mend all pairs: 2.2, 0.2, 1.1; then check says 'safe: 1 pairs' (17 are
    not checked)
    to make these edits: twire mend board.brief --all --in-place
    not checked: 1 of 19 pairs, which 'never' keeps apart"

# Where most of a family clash one item for it does, and else single messages have an item each.
brief 'brief 1' "message page write 0x50 any*1..2 ;" 'message get write 0x50 any read 0x50 1 ;' \
    'message other read 0x48 1 ;' 'controller bmc page other ;' 'controller host other get ;'
kept "a family of 2, of which one meets in each group" "\
    0.2 keep the two sides apart by a lock outside the bus: 1 of 6 pairs is then
    not checked: board.brief:7
    never bmc/page_1 host/get ;
    1.2 keep the two sides apart by a lock outside the bus: 1 of 6 pairs is then
    not checked: board.brief:7
    never bmc/page_2 host/get ;
unsafe: 2 of 6 pairs
    to mend all pairs: 0.2, 1.2; then check says 'safe: 4 pairs' (2 are not
    checked)
    to make these edits: twire mend board.brief --all --in-place"
sed -i 's/any\*1\.\.2/any*1..6/' board.brief
kept "a family of 6" "\
    0.2 keep the two sides apart by a lock outside the bus: 6 of 14 pairs are
    then not checked: board.brief:7 (mends groups 0, 1: 6 of 6 unsafe pairs)
    never bmc/page host/get ;
    1.2 keep the two sides apart by a lock outside the bus: 1 of 14 pairs is
    then not checked: board.brief:7
    never bmc/page_1 host/get ;
unsafe: 6 of 14 pairs
    to mend all pairs: 1.2, 0.2; then check says 'safe: 8 pairs' (6 are not
    checked)
    to make these edits: twire mend board.brief --all --in-place"
sed -i 's/any\*1\.\.6/any*1..32/' board.brief
kept "a family of 32" "\
    0.2 keep the two sides apart by a lock outside the bus: 32 of 66 pairs are
    then not checked: board.brief:7 (mends groups 0, 1: 32 of 32 unsafe pairs)
    never bmc/page host/get ;
    1.2 keep the two sides apart by a lock outside the bus: 1 of 66 pairs is
    then not checked: board.brief:7
    never bmc/page_1 host/get ;
unsafe: 32 of 66 pairs
    to mend all pairs: 1.2, 0.2; then check says 'safe: 34 pairs' (32 are not
    checked)
    to make these edits: twire mend board.brief --all --in-place"
# A controller that sends nothing but the family is named itself.
brief 'brief 1' 'message page write 0x50 any*1..6 ;' 'message get write 0x50 any read 0x50 1 ;' \
    'message other read 0x48 1 ;' 'controller bmc page ;' 'controller host other get ;'
kept "a controller of one family" "\
    0.2 keep the two sides apart by a lock outside the bus: 6 of 12 pairs are
    then not checked: board.brief:7 (mends groups 0, 1: 6 of 6 unsafe pairs)
    never bmc host/get ;
    1.2 keep the two sides apart by a lock outside the bus: 1 of 12 pairs is
    then not checked: board.brief:7
    never bmc/page_1 host/get ;
unsafe: 6 of 12 pairs
    to mend all pairs: 1.2, 0.2; then check says 'safe: 6 pairs' (6 are not
    checked)
    to make these edits: twire mend board.brief --all --in-place"
# Two families: pairs of equal lengths are left out with the others where their labels are named.
brief 'brief 1' 'message page write 0x50 any*1..3 ;' 'message other read 0x48 1 ;' 'controller bmc page other ;' \
    'controller host other page ;'
kept "two families" "\
    0.1 keep the two sides apart by a lock outside the bus: 9 of 16 pairs are
    then not checked, more than half: board.brief:6
    never bmc/page host/page ;
unsafe: 6 of 16 pairs
    to mend all pairs: 0.1; then check says 'safe: 7 pairs' (9 are not checked)
    to make these edits: twire mend board.brief --all --in-place"
# Of a family of which few clash these are named.
brief 'brief 1' 'message page write 0x50 0x01 0x00*1..8 ;' 'message put write 0x50 0x01 0x00 0x00 0x01 ;' \
    'message other read 0x48 1 ;' 'controller bmc page other ;' 'controller host other put ;'
kept "few messages of a family" "\
    0.1 keep the two sides apart by a lock outside the bus: 2 of 18 pairs are
    then not checked: board.brief:7, board.brief:8
    never bmc/page_1 host/put ;
    never bmc/page_2 host/put ;
unsafe: 2 of 18 pairs
    to mend all pairs: 0.1; then check says 'safe: 16 pairs' (2 are not checked)
    to make these edits: twire mend board.brief --all --in-place"
sed -i 's/^controller bmc .*/controller bmc page_1 page_2 page_7 other ;/' board.brief
kept "two of three messages of a family" "\
    0.1 keep the two sides apart by a lock outside the bus: 2 of 8 pairs are
    then not checked: board.brief:7, board.brief:8
    never bmc/page_1 host/put ;
    never bmc/page_2 host/put ;
unsafe: 2 of 8 pairs
    to mend all pairs: 0.1; then check says 'safe: 6 pairs' (2 are not checked)
    to make these edits: twire mend board.brief --all --in-place
    not checked: 5 messages that no controller lists: page_3 to page_6
    (board.brief:2), page_8 (board.brief:2)"
# A label stands for those of a family that the controller lists.
brief 'brief 1' 'message page write 0x50 any*1..32 ;' 'message get write 0x50 any read 0x50 1 ;' \
    'message other read 0x48 1 ;' 'controller bmc page_1 page_2 page_3 page_4 page_5 page_9 other ;' \
    'controller host other get ;'
kept "six messages of a family" "\
    0.2 keep the two sides apart by a lock outside the bus: 6 of 14 pairs are
    then not checked: board.brief:7 (mends groups 0, 1: 6 of 6 unsafe pairs)
    never bmc/page host/get ;
    1.2 keep the two sides apart by a lock outside the bus: 1 of 14 pairs is
    then not checked: board.brief:7
    never bmc/page_1 host/get ;
unsafe: 6 of 14 pairs
    to mend all pairs: 1.2, 0.2; then check says 'safe: 8 pairs' (6 are not
    checked)
    to make these edits: twire mend board.brief --all --in-place
    not checked: 26 messages that no controller lists: page_6 to page_8
    (board.brief:2), page_10 to page_32 (board.brief:2)"
# Messages of one line that have the names of a family are none. The list has a bit for each group, and no pointer.
brief 'brief 1' 'message page_1 write 0x50 any ; message page_2 write 0x50 any any ;' \
    'message get write 0x50 any read 0x50 1 ; message other read 0x48 1 ;' 'controller bmc page_1 page_2 other ;' \
    'controller host other get ;'
cp board.brief p.brief
mends "no family" "\
    0.1 let bit 7 of data byte 1 be 0 in 'page_1' and 1 in 'get': p.brief:2,
    p.brief:3
    message page_1 write 0x50 0b0xxxxxxx ; message page_2 write 0x50 any any ;
    message get write 0x50 0b1xxxxxxx read 0x50 1 ; message other read 0x48 1 ;
    0.2 leave out what 'get' writes before it reads, if the device keeps its
    register pointer (others may have moved it): p.brief:3 (mends groups 0, 1: 2
    of 2 unsafe pairs)
    message get read 0x50 1 ; message other read 0x48 1 ;
    0.3 keep the two sides apart by a lock outside the bus: 1 of 6 pairs is then
    not checked: p.brief:6
    never bmc/page_1 host/get ;
    1.1 let bit 7 of data byte 1 be 0 in 'page_2' and 1 in 'get': p.brief:2,
    p.brief:3
    message page_1 write 0x50 any ; message page_2 write 0x50 0b0xxxxxxx any ;
    message get write 0x50 0b1xxxxxxx read 0x50 1 ; message other read 0x48 1 ;
    1.2 leave out what 'get' writes before it reads, if the device keeps its
    register pointer (others may have moved it): p.brief:3 (mends groups 0, 1: 2
    of 2 unsafe pairs)
    message get read 0x50 1 ; message other read 0x48 1 ;
    1.3 keep the two sides apart by a lock outside the bus: 1 of 6 pairs is then
    not checked: p.brief:6
    never bmc/page_2 host/get ;
unsafe: 2 of 6 pairs
    to mend all pairs: 0.1, 1.1; then check says 'safe: 6 pairs'
    to make these edits: twire mend p.brief --all --in-place" p.brief
# What a brief could not have is not offered: a label whose part has the name of a controller.
brief 'brief 1' 'message page write 0x50 any*1..6 ;' 'message get write 0x50 any read 0x50 1 ;' \
    'message other read 0x48 1 ;' 'controller bmc page other ;' 'controller bmc_page other ;' 'controller host other get ;'
kept "a label whose name is taken" "\
    0.2 keep the two sides apart by a lock outside the bus: 14 of 23 pairs are
    then not checked, more than half: board.brief:8 (mends groups 0, 1: 6 of 6
    unsafe pairs)
    never bmc host ;
    1.2 keep the two sides apart by a lock outside the bus: 1 of 23 pairs is
    then not checked: board.brief:8
    never bmc/page_1 host/get ;
unsafe: 6 of 23 pairs
    to mend all pairs: 1.2, 0.2; then check says 'safe: 9 pairs' (14 are not
    checked)
    to make these edits: twire mend board.brief --all --in-place"
# Eight items are offered, and with more of them controllers, where these leave anything to check. Four lines of an offer are
# shown, and six places.
# writes COUNT: a board of so many single messages that clash with one.
writes() {
    local k messages=() listed=
    for ((k = 1; k <= $1; k++)); do
        messages+=("message a$k write 0x50 0x0$k any ;")
        listed+=" a$k"
    done
    brief 'brief 1' 'message get write 0x50 any read 0x50 1 ;' 'message other read 0x48 1 ;' "${messages[@]}" \
        "controller bmc other$listed ;" 'controller host get other ;'
}
writes 8
cp board.brief p.brief
mends "eight items" "\
    0.1 let 'get' never send 0x00 to 0x7F in data byte 1 (bit 7 is then 1, which
    the other side never sends): p.brief:2
    message get write 0x50 0b1xxxxxxx read 0x50 1 ;
    0.2 leave out what 'get' writes before it reads, if the device keeps its
    register pointer (others may have moved it): p.brief:2
    message get read 0x50 1 ;
    0.3 keep the two sides apart by a lock outside the bus: 8 of 18 pairs are
    then not checked: p.brief:14, p.brief:15, p.brief:16, p.brief:17,
    p.brief:18, p.brief:19 and 2 more
    never bmc/a1 host/get ;
    never bmc/a2 host/get ;
    never bmc/a3 host/get ;
    never bmc/a4 host/get ;
    # and 4 lines more
unsafe: 8 of 18 pairs
    to mend all pairs: 0.1; then check says 'safe: 18 pairs'
    to make these edits: twire mend p.brief --all --in-place" p.brief
writes 9
kept "nine items" "\
unsafe: 9 of 20 pairs
    to mend all pairs: 0.1; then check says 'safe: 20 pairs'
    to make these edits: twire mend board.brief --all --in-place"
sed -i 's/^controller host .*/&\ncontroller seq other ;/' board.brief
kept "nine items of two controllers of three" "\
    0.3 keep the two sides apart by a lock outside the bus: 20 of 32 pairs are
    then not checked, more than half: board.brief:16
    never bmc host ;
unsafe: 9 of 32 pairs
    to mend all pairs: 0.1; then check says 'safe: 32 pairs'
    to make these edits: twire mend board.brief --all --in-place"
# Messages that are numbered by hand are no family: twelve items for them are too many.
brief 'brief 1' 'message page1 write 0x50 any any ;' 'message page2 write 0x50 any any*2 ;' \
    'message page3 write 0x50 any any*3 ;' 'message page4 write 0x50 any any*4 ;' 'message far read 0x40 1 ;' \
    'controller bmc page1 page2 page3 page4 far ;' 'controller pch page1 page2 page3 page4 far ;'
kept "messages that could be a family" "\
unsafe: 12 of 25 pairs
    no edit was found that mends a group"
# Written as a family they have one item.
brief 'brief 1' 'message page write 0x50 any any*1..4 ;' 'message far read 0x40 1 ;' 'controller bmc page far ;' \
    'controller pch page far ;'
kept "messages that are written as a family" "\
    0.1 keep the two sides apart by a lock outside the bus: 16 of 25 pairs are
    then not checked, more than half: board.brief:6
    never bmc/page pch/page ;
unsafe: 12 of 25 pairs
    to mend all pairs: 0.1; then check says 'safe: 9 pairs' (16 are not checked)
    to make these edits: twire mend board.brief --all --in-place"
echo 'never bmc/page pch/page ;' >>board.brief
want 0 "safe: 9 pairs" ""
run "the item of a family" check board.brief
# Single messages of a family have items of their own as far as there is room for them: of five clashes three.
brief 'brief 1' 'message page write 0x50 0x11 0x00*1..8 ; message put write 0x50 0x11 0x00 0x00 0x01 ;' \
    'message other read 0x48 1 ;' 'controller bmc page other ;' "$(printf 'controller h%d put other ;\n' 1 2 3 4 5)"
want 1 "    never bmc/page_1 h1/put ;
    never bmc/page_2 h1/put ;
    never bmc/page_1 h2/put ;
    never bmc/page_2 h2/put ;
    # and 4 lines more
unsafe: 10 of 130 pairs
    to mend all pairs: 0.1; then check says 'safe: 108 pairs' (22 are not
    checked)
    to make these edits: twire mend board.brief --all --in-place" ""
call check --summary board.brief
sed -i -n '/^    never/,$p' out
compare "five clashes of two messages each, in eight items"

# Interrupts, two of them on one line.
brief 'brief 1' 'device sensor 0x48 ;' 'message get read sensor 1 ;' 'controller a get ;' '' \
    'interrupt al sensor ; interrupt second sensor ;'
want 1 "pair 0 a/get !al: answer against claim after 10010001
pair 1 a/get !second: answer against claim after 10010001
pair 2 !al !second: claim against claim after 10010001
    group 0, pair 0:
    bus    S 48 Rd
    a/get  S 48 Rd          next: a target's bit
    !al    S 48 Rd (waits)  next: a wait for the answer
    slot 8, the profile of interrupts: a target's bit meets a wait for the
    answer. Both send alike until here.
    see board.brief:3 and board.brief:6
    a/get × !al: 1 pair, an interrupt has the same header
    0.1 give the interrupt 'al' an address that nothing else has: board.brief:6
    (mends groups 0, 2: 2 of 3 unsafe pairs)
    interrupt al 0x09 ; interrupt second sensor ;
    group 1, pair 1:
    bus      S 48 Rd
    a/get    S 48 Rd          next: a target's bit
    !second  S 48 Rd (waits)  next: a wait for the answer
    slot 8, the profile of interrupts: a target's bit meets a wait for the
    answer. Both send alike until here.
    see board.brief:3 and board.brief:6
    a/get × !second: 1 pair, an interrupt has the same header
    1.1 give the interrupt 'second' an address that nothing else has:
    board.brief:6 (mends groups 1, 2: 2 of 3 unsafe pairs)
    interrupt al sensor ; interrupt second 0x0A ;
    group 2, pair 2:
    bus      S 48 Rd
    !al      S 48 Rd (waits)  next: a wait for the answer
    !second  S 48 Rd (waits)  next: a wait for the answer
    slot 8, the profile of interrupts: a wait for the answer meets a wait for
    the answer. Both send alike until here.
    see board.brief:6
    !al × !second: 1 pair, an interrupt has the same header
    2.1 give the interrupt 'al' an address that nothing else has: board.brief:6
    (mends groups 0, 2: 2 of 3 unsafe pairs)
    interrupt al 0x09 ; interrupt second sensor ;
    2.2 give the interrupt 'second' an address that nothing else has:
    board.brief:6 (mends groups 1, 2: 2 of 3 unsafe pairs)
    interrupt al sensor ; interrupt second 0x0A ;
unsafe: 3 of 3 pairs
    to mend all pairs: 0.1, 1.1; then check says 'safe: 3 pairs'
    to make these edits: twire mend board.brief --all --in-place" ""
run "interrupts of a brief" check --explain board.brief

# Several files.
printf '%s\n' 'brief 1' 'message set write 0x48 0x01 any ;' 'message get write 0x48 0x01 read 0x48 1 ;' \
    'controller bmc set ;' >first.brief
printf '%s\n' 'brief 1' '' 'controller pch get ;' >second.brief
want 1 "pair 0 bmc/set pch/get: data against restart after 10010000l00000001l
    group 0, pair 0:
    bus      S 48 Wr A 01 A
    bmc/set  S 48 Wr A 01 A xxxxxxxx  next: a data bit
    pch/get  S 48 Wr A 01 A Sr        next: a repeated START
    slot 18, UM10204 3.1.8: a data bit meets a repeated START. Both send alike
    until here.
    see <stdin>:2 and <stdin>:3
    bmc/set × pch/get: 1 pair, one goes on, one repeats START
    0.1 leave out what 'get' writes before it reads, if the device keeps its
    register pointer (others may have moved it): <stdin>:3
    message get read 0x48 1 ;
unsafe: 1 of 1 pairs
    to mend all pairs: 0.1; then check says 'safe: 1 pairs'" ""
run "the first file is standard input" check --explain - --with second.brief <first.brief
sed -i '/^message get/d' first.brief
sed -i '2s/.*/message get write 0x48 0x01 read 0x48 1 ;/' second.brief
sed -i 's/<stdin>:2 and <stdin>:3/first.brief:2 and second.brief:2/; s/<stdin>:3/second.brief:2/' want_out
printf '%s\n' '    to make these edits:' '    twire mend first.brief --with second.brief --all --in-place' >>want_out
run "messages of two files" check --explain first.brief --with second.brief
printf '%s\n' 'brief 1' 'interrupt al 0x48 ;' >alert.brief
printf '%s\n' 'brief 1' 'message get read 0x48 1 ;' 'controller a get ;' >get.brief
want 1 "    see get.brief:2 and alert.brief:2" ""
call check --explain get.brief --with alert.brief
sed -i '/^    see/!d' out
compare "a message and an interrupt of two files"

# The paths of places stay whole. Neither is a line too long, unless a path alone is, nor does 'see' stand alone.
see() {
    same "$1" "$(printf '    %s\n' "${@:2}")" \
        "$("$twire" check --explain "$first" --with "$second" 2>&1 | sed -n '/^    see/,/ × /p' | sed '$d')"
}
d=$(printf 'd%.0s' {1..60})
first=$d.brief second=e$d.brief
cp first.brief "$first"
cp second.brief "$second"
see "places on two lines" "see $first:2 and" "$second:2"
first=$second second=$d.brief
see "a place that is too long beside 'see'" "see these lines:" "$first:2" "$second:2"
mkdir "$d $d"
first=$d.brief second="$d $d/a b.brief"
cp second.brief "$second"
see "a path that is too long, with blanks" "see $first:2 and" "$second:2"
first=$second second=$d.brief
cp first.brief "$first"
printf '%s\n' 'brief 1' '' 'controller pch get ;' >"$second"
sed -i '$a message get write 0x48 0x01 read 0x48 1 ;' "$first"
see "two places of a path that is too long" "see these lines:" "$first:2" "$first:4"

# Certificates, rehearsals and captures.
brief 'brief 1' 'message set write 0x48 0x01 any ;' 'message get write 0x48 0x02 read 0x48 1 ;' \
    'controller bmc set get ;' 'controller pch get ;' 'never bmc/get pch ;'
"$twire" certify board.brief >c.cert
sed -i 's/P[0-9]*/P1/' c.cert
want 2 "wrong C5 pair 0
    bmc/set  S 48 Wr A 01  next: a data bit
    pch/get  S 48 Wr A 02  next: a data bit
    slot 9, word 2 of its proof: no bit of this number is known in both and
    different there
    see board.brief:2 and board.brief:3
    bmc/set × pch/get: what the certificate says is not so
    a plan that was changed wants a new certificate: twire certify PLAN" ""
run "a certificate of a brief" verify --explain board.brief c.cert
brief 'brief 1' 'message set write 0x48 0x01 ;' 'controller bmc set ;' '# the sensor' 'interrupt al 0x49 ;'
printf '%s\n' 'cert 1' 'pairs 1' 'P1' >c.cert
want 2 "wrong C5 pair 0
    bmc/set  S 48 Wr  next: a data bit
    !al      S 49 Rd  next: a data bit
    slot 0, word 1 of its proof: no bit of this number is known in both and
    different there
    see board.brief:2 and board.brief:5
    bmc/set × !al: what the certificate says is not so
    a plan that was changed wants a new certificate: twire certify PLAN" ""
run "a certificate of a brief, of an interrupt" verify --explain board.brief c.cert

brief 'brief 1' 'message set write 0x48 0x01 any ;' 'message page write 0x50 any*1..2 ;' 'controller bmc set page ;' \
    'interrupt al 0x48 ;' 'controller pch ;' 'never bmc/page pch ;'
want 0 "wire 10010001c
    slot        0
    bus         48 Rd
    wire        10010001 c
    bmc/page_1  101  lost in slot 2
    !al         10010001 c  won
won !al" ""
run "a rehearsal of a brief" bench --explain --certify board.brief 'bmc_page/page_1,!al' --rest 0
want 1 "5-160 unexplained
    bus         S 10 Wr A P
    bmc/set     S 48 Wr  next: a data bit
    bmc/page_1  S 50 Wr  next: a data bit
    bmc/page_2  S 50 Wr  next: a data bit
    slot 0, bmc/set: it sends 1, the bus has 0
    see board.brief:2
    slot 0, bmc/page_1: it sends 1, the bus has 0
    see board.brief:3
    slot 0, bmc/page_2: it sends 1, the bus has 0
    see board.brief:3
1 transactions, 1 unexplained" ""
run "a capture by a brief" capture --explain board.brief "$examples/stop_meets_data.vcd"
run "a live capture by a brief" capture --explain --live board.brief "$examples/stop_meets_data.vcd"
"$top/tools/dump" 100100000 >d.vcd
want 1 "5-160 unexplained
    bus         S 48 Wr A P
    bmc/set     S 48 Wr A 01  next: a data bit
    !al         S 48 Rd       next: a data bit
    bmc/page_1  S 50 Wr       next: a data bit
    slot 9, bmc/set: it sends 0, the bus has a STOP
    see board.brief:2
    slot 7, !al: it sends 1, the bus has 0
    see board.brief:5
    slot 2, bmc/page_1: it sends 1, the bus has 0
    see board.brief:3
1 transactions, 1 unexplained" ""
run "an interrupt of a brief that goes along with a transaction" capture --explain board.brief d.vcd

# ---- Who wins, by controllers and messages, above the lines of the pairs.

frequency="    'wins' counts pairs, and is no frequency: how often two start together is
    not known"
want 0 "    main × guard: 2 pairs; guard wins 1, either may win 1
    main/write_limit never wins against guard
    main/write_limit waits in each pair that somebody wins
$frequency
pair 0 main/write_settings guard/write_alarm: both 9..27, main/write_settings 21..25, guard/write_alarm 19..25
pair 1 main/write_limit guard/write_alarm: both 9, guard/write_alarm 15
total main/write_settings: wins 0, may win 1, loses 0
total main/write_limit: wins 0, may win 0, loses 1
total guard/write_alarm: wins 1, may win 1, loses 0" ""
run "who never wins against a controller" order --explain "$examples/two_writers.plan"
want 0 "    main × guard: 1 pair; guard wins 1
    main never wins against guard
    main × !sensor: 1 pair; main wins 1
    !sensor never wins against main
    main × !keypad: 1 pair; !keypad wins 1
    main never wins against !keypad
    guard × !sensor: 1 pair; guard wins 1
    !sensor never wins against guard
    guard × !keypad: 1 pair; !keypad wins 1
    guard never wins against !keypad
    !sensor × !keypad: 1 pair; !keypad wins 1
    !sensor never wins against !keypad
    !sensor waits in each pair that somebody wins
$frequency
pair 0 main/read_sensor guard/write_display: guard/write_display 0
pair 1 main/read_sensor !sensor: main/read_sensor 7
pair 2 main/read_sensor !keypad: !keypad 0
pair 3 guard/write_display !sensor: guard/write_display 0
pair 4 guard/write_display !keypad: !keypad 2
pair 5 !sensor !keypad: !keypad 0
total main/read_sensor: wins 1, may win 0, loses 2
total guard/write_display: wins 2, may win 0, loses 1
total !sensor: wins 0, may win 0, loses 3
total !keypad: wins 3, may win 0, loses 0" ""
run "interrupts, each by itself" order --explain "$examples/interrupts.plan"
plan 'plan 1' 'message m write 1001000 00000001 stop else stop else stop ;' 'controller a m ;' 'controller b m ;'
want 0 "    a × b: 1 pair; both always end together 1
$frequency
pair 0 a/m b/m: both 9..18" ""
run "nobody wins" order --explain p.plan
plan 'plan 1' 'message m write 1001000 stop else stop ;' 'controller a m ;'
want 0 "    no two participants may start together" ""
run "nobody could win" order --explain p.plan

# summed NAME STATUS LINE..: the lines for people of who wins by board.brief.
summed() {
    call order --explain board.brief
    sed -i '/^    /!d' out
    judge "$1" "$2" "$(printf '    %s\n' "${@:3}")"$'\n'"$frequency" ""
}
# A controller that is split is one. Nobody wins unsafe pairs.
brief 'brief 1' 'device sensor 0x48 ;' 'message set write sensor 0x01 any ;' \
    'message get write sensor 0x01 read sensor 1 ;' 'message page write 0x50 any*1..2 ;' \
    'controller bmc set page ;' 'controller pch get page ;' 'never bmc/set pch/page ;'
summed "who wins by a brief" 1 "bmc × pch: 7 pairs; pch wins 2, either may win 2, unsafe 3"
alike "who wins by a brief" order board.brief
# Ten messages lose each of their pairs, and one wins: its controller wins some.
brief 'brief 1' 'message page write 0x50 any*1..10 ;' 'message far read 0x40 1 ;' 'message get read 0x48 1 ;' \
    'controller bmc page far ;' 'controller pch get ;'
summed "ten messages that never win" 0 "bmc × pch: 11 pairs; bmc wins 1, pch wins 10" \
    "bmc/page_1, bmc/page_2, bmc/page_3, bmc/page_4, bmc/page_5, bmc/page_6," "bmc/page_7, bmc/page_8 and 2 more never win against pch" \
    "bmc/page_1, bmc/page_2, bmc/page_3, bmc/page_4, bmc/page_5, bmc/page_6," "bmc/page_7, bmc/page_8 and 2 more wait in each pair that somebody wins"
# Three controllers: who loses against one of them may win against another.
brief 'brief 1' 'message low read 0x40 1 ;' 'message mid read 0x48 1 ;' 'message high read 0x50 1 ;' 'controller a low high ;' \
    'controller b mid ;' 'controller c high ;'
summed "three controllers" 0 "a × b: 2 pairs; a wins 1, b wins 1" "a/high never wins against b" \
    "a × c: 2 pairs; a wins 1, both always end together 1" "c never wins against a" "b × c: 1 pair; b wins 1" \
    "c never wins against b" "a/high, c/high wait in each pair that somebody wins"
alike "who wins among three controllers" order board.brief

# ---- Long names and long messages.

long=$(printf 'n%.0s' {1..32})
bytes=$(printf ' xx00xx11%.0s' {1..250})
stops=$(printf ' else stop%.0s' {1..251})
plan 'plan 1' "message $long write 1001000$bytes stop$stops ;" "message other write 1001000$bytes 00000000 stop$stops else stop ;" \
    "controller $long $long ;" 'controller b other ;' 'interrupt '"$long"' 1001001 ;'
alike "names of 32 characters, and a clash after 250 bytes" check p.plan
alike "who wins among names of 32 characters" order p.plan
same "bytes in the middle of a long row are counted" "    bus  S 48 Wr A .. 249 bytes alike .. 03 A
    $long/$long
         S 48 Wr A .. 249 bytes alike .. xx00xx11 A P   next: a STOP
    b/other
         S 48 Wr A .. 249 bytes alike .. xx00xx11 A 00  next: a data bit" \
    "$("$twire" check --explain p.plan 2>&1 | sed -n '3,7p')"
sed -i '/interrupt/d; s/^plan 1/plan 2/' p.plan
echo "never $long b ;" >>p.plan
"$twire" certify p.plan >c.cert
alike "a rehearsal of 250 bytes" bench p.plan c.cert "$long/$long"

# The longest names and 256 bytes, by each of the four commands: what is said to people has 80 columns, and is folded.
one=$(printf 'a%.0s' {1..32}) other=$(printf 'b%.0s' {1..32}) left=$(printf 'c%.0s' {1..32}) right=$(printf 'd%.0s' {1..32})
# longest FIRST SECOND: a brief with two messages that have such names, each of a controller.
longest() {
    brief 'brief 1' "message $one $1 ;" "message $other $2 ;" "controller $left $one ;" "controller $right $other ;"
}
# told NAME TEXT ARG..: with --explain these lines for people stand below the report.
told() {
    alike "$1" "${@:3}"
    same "$1" "$2" "$(grep '^    ' explained)"
}
longest 'write 0x48 any*255' 'write 0x48 any*254'
meets="    bus  S 48 Wr A .. 253 bytes alike .. 00 A
    $left/$one
         S 48 Wr A .. 253 bytes alike .. xxxxxxxx A xxxxxxxx  next: a data bit
    $right/$other
         S 48 Wr A .. 253 bytes alike .. xxxxxxxx A P         next: a STOP
    slot 2295, UM10204 3.1.8: a data bit meets a STOP. Both send alike until
    here.
    $left/$one may send
    either bit before it in slot 9..16, 18..25, 27..34, 36..43, 45..52, 54..61
    and 248 more
    $right/$other may send
    either bit before it in slot 9..16, 18..25, 27..34, 36..43, 45..52, 54..61
    and 248 more
    see board.brief:2 and board.brief:3
    $left/$one ×"
told "the longest that clash, by check" "    group 0, pair 0:
$meets
    $right/$other: 1 pair,
    lengths differ
    0.1 let bit 7 of data byte 1 be 0 in '$one' and
    1 in '$other': board.brief:2, board.brief:3
    message $one write 0x48 0b0xxxxxxx any*254 ;
    message $other write 0x48 0b1xxxxxxx any*253 ;
    0.2 let '$other' send 1 byte more, as many as the
    other side: board.brief:3
    message $other write 0x48 any*254 any ;
    to mend all pairs: 0.1; then check says 'safe: 1 pairs'
    to make these edits: twire mend board.brief --all --in-place" check board.brief
meets="    pair 0:
$meets
    $right/$other: lengths
    differ
    a certificate names one pair; all, in groups: twire check --explain PLAN"
"$twire" certify board.brief >c.cert
told "the longest that clash, by verify" "$meets" verify board.brief c.cert
told "the longest that clash, by bench" "$meets" bench board.brief c.cert "$left/$one"
# They part in the last byte, and a proof that does not say so breaks off there.
longest 'write 0x48 0x01*255' 'write 0x48 0x01*254 0x02'
"$twire" certify board.brief | sed 's/P6/P0/' >c.cert
told "a wrong proof of the longest" "    $left/$one
         S 48 Wr A .. 251 bytes .. 01 A 01 A 01 A 01  next: a data bit
    $right/$other
         S 48 Wr A .. 251 bytes .. 01 A 01 A 01 A 02  next: a data bit
    slot 2295, word 256 of its proof: no bit of this number is known in both and
    different there
    see board.brief:2 and board.brief:3
    $left/$one ×
    $right/$other: what the
    certificate says is not so
    a plan that was changed wants a new certificate: twire certify PLAN" verify board.brief c.cert
byte=00000001
told "a rehearsal of the longest" "    slot  0          9          18         27         36         45
    bus   48 Wr    A 01       A 01       A 01       A 01       A 01       A
    wire  10010000 l $byte l $byte l $byte l $byte l $byte l
    $left/$one
          10010000 . $byte . $byte . $byte . $byte . $byte .
    $right/$other
          10010000 . $byte . $byte . $byte . $byte . $byte .
    .. 246 bytes alike ..
    slot  2268       2277       2286       2295
    bus   01       A 01       A 01       A 01       A P
    wire  $byte l $byte l $byte l $byte l s
    $left/$one
          $byte . $byte . $byte . $byte . s  won
    $right/$other
          $byte . $byte . $byte . 0000001  lost in slot 2301" \
    bench board.brief --certify "$left/$one,$right/$other" --rest 0
# bytes COUNT: so many bytes 01 with their acknowledges, as levels.
bytes() {
    printf '000000010%.0s' $(seq "$1")
}
"$top/tools/dump" "100100000$(bytes 255)" >d.vcd
told "the longest that somebody explains" "    bus  S 48 Wr A .. 248 bytes .. 01 A 01 A 01 A 01 A 01 A 01 A 01 A P" capture board.brief d.vcd
# Both leave in the byte 05, after which 200 more come.
"$top/tools/dump" "100100000$(bytes 20)000001010$(bytes 200)" >d.vcd
told "the longest that nobody explains" "    bus  S 48 Wr A .. 17 bytes alike .. 01 A 01 A 01 A 05 A .. 200 bytes more
    $left/$one
         S 48 Wr A .. 17 bytes alike .. 01 A 01 A 01 A 01  next: a data bit
    $right/$other
         S 48 Wr A .. 17 bytes alike .. 01 A 01 A 01 A 01  next: a data bit
    slot 194, $left/$one:
    it sends 0, the bus has 1
    see board.brief:2
    slot 194, $right/$other:
    it sends 0, the bus has 1
    see board.brief:3" capture board.brief d.vcd

# Where one row is too long, the same bytes are left out of each, and the last one is shown.
brief 'brief 1' 'message short write 0x50 any*3 ;' 'message long write 0x50 any*8 ;' 'controller bmc short ;' \
    'controller host long ;'
want 1 "pair 0 bmc/short host/long: stop against data after 10100000l00000000l00000000l00000000l
    group 0, pair 0:
    bus        S 50 Wr A .. 3 bytes alike ..
    bmc/short  S 50 Wr A .. 3 bytes alike .. P         next: a STOP
    host/long  S 50 Wr A .. 3 bytes alike .. xxxxxxxx  next: a data bit
    slot 36, UM10204 3.1.8: a STOP meets a data bit. Both send alike until here.
    bmc/short may send either bit before it in slot 9..16, 18..25, 27..34
    host/long may send either bit before it in slot 9..16, 18..25, 27..34
    see board.brief:2 and board.brief:3
    bmc/short × host/long: 1 pair, lengths differ
    0.1 let bit 7 of data byte 1 be 0 in 'short' and 1 in 'long': board.brief:2,
    board.brief:3
    message short write 0x50 0b0xxxxxxx any*2 ;
    message long write 0x50 0b1xxxxxxx any*7 ;
    0.2 let 'short' send 5 bytes more, as many as the other side: board.brief:2
    message short write 0x50 any*3 any*5 ;
unsafe: 1 of 1 pairs
    to mend all pairs: 0.1; then check says 'safe: 1 pairs'
    to make these edits: twire mend board.brief --all --in-place" ""
run "a row that is too long" check --explain board.brief
# Bytes that are known in one of them: the same ones are left out of it, though it would have room for more.
brief 'brief 1' 'message short write 0x50 0x01*6 read 0x50 1 ;' 'message long write 0x50 any*9 ;' 'controller bmc short ;' \
    'controller host long ;'
same "known bytes in a row that is too long" "    bus        S 50 Wr A .. 6 bytes alike ..
    bmc/short  S 50 Wr A .. 6 bytes alike .. Sr        next: a repeated START
    host/long  S 50 Wr A .. 6 bytes alike .. xxxxxxxx  next: a data bit" \
    "$("$twire" check --explain board.brief 2>&1 | sed -n '3,5p')"

# ---- Many pairs.

# names PREFIX COUNT: so many names of 32 characters, none of which is like another.
names() {
    seq -f "$1%030.0fn" "$2" | tr '\n' ' '
}
{
    echo 'plan 1'
    text='write 1001000'
    tails='stop'
    for name in $(names m 16); do
        echo "message $name $text $tails else stop ;"
        text+=' 01010101'
        tails+=' else stop'
    done
    for name in $(names c 3); do
        echo "controller $name $(names m 16);"
    done
} >p.plan
alike "720 unsafe pairs, all groups explained" check p.plan --most 1000000
same "each of 120 groups has its reason" 120 "$(grep -c '^    slot [0-9]*, UM10204 3\.1\.8: a' explained)"
unwritten "an explained report that a full device takes no part of" "refused write" \
    check p.plan --explain --most 1000000 >/dev/full
"$twire" check p.plan --explain --most 1000000 2>err | head -c 70000 >out
status=${PIPESTATUS[0]}
head -c 70000 explained >want_out
compare "an explained report of which the first part is taken"

# 64 starters, of which one has a message of 4,096 nodes and the others part from it in their second byte, or in their second
# bit.
bits() {
    local k text=
    for ((k = $2 - 1; k >= 0; k--)); do
        text+=$((($1 >> k) & 1))
    done
    echo "$text"
}
"$top/tools/fullest_plan" | grep '^message m0 ' >largest
{
    echo 'plan 1'
    cat largest
    for k in {1..31}; do
        echo "message m$k write 1001000 $(bits "$k" 8) stop else stop else stop ;"
    done
    for k in {0..31}; do
        echo "controller c$k m$k ;"
    done
    for k in {0..31}; do
        echo "interrupt t$k 11$(bits "$k" 5) ;"
    done
} >p.plan
"$twire" certify p.plan -o c.cert
starters=$(for k in {0..31}; do printf 'c%d/m%d,' "$k" "$k"; done)$(seq -f '!t%.0f' -s , 0 31)
alike "64 starters" bench p.plan c.cert "$starters" --rest 0
want 0 "63
32" ""
{
    grep -c ' lost in slot ' explained
    grep -c '^    !t[0-9]* *11  lost in slot 1$' explained
} >out
: >err
status=0
compare "each of 64 starters but one loses, the interrupts in slot 1"

# Two messages of 4,096 nodes and one less, which part where the shorter ends its second frame: after 18 bytes, a repeated
# START and 218 bytes.
{
    echo 'plan 1'
    cat largest
    sed 's/^message m0/message shorter/; s/ 01010101 stop else stop/ stop/' largest
    printf 'controller a m0 ;\ncontroller b shorter ;\n'
} >p.plan
alike "a clash after 2,125 slots" check p.plan
same "the slot of that clash" "    slot 2125, UM10204 3.1.8: a data bit meets a STOP. Both send alike until
    here." "$(grep -A 1 '^    slot ' explained)"

# ---- Refusals are the same.

: >empty
for it in check verify capture bench; do
    second=(empty)
    [[ $it == check ]] && second=()
    third=()
    [[ $it == bench ]] && third=(a)
    alike "$it without a plan" "$it" none "${second[@]}" "${third[@]}"
    alike "$it of an empty plan" "$it" empty "${second[@]}" "${third[@]}"
    alike "$it of a folder" "$it" . "${second[@]}" "${third[@]}"
done
alike "no workers" check "$examples/two_writers.plan" --workers 0
alike "an empty dump" capture "$examples/two_writers.plan" empty
alike "an empty certificate" verify "$examples/two_writers.plan" empty
alike "an unknown starter" bench "$examples/two_writers.plan" two.cert nobody/nothing

finish
