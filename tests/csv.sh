#!/usr/bin/env bash
# What comes from the bench: tables (CSV) that tools/csv_to_vcd makes dumps of, what hints say of files in other formats, and
# captures whose samples are too far apart.
source "$(dirname -- "$(readlink -f -- "${BASH_SOURCE[0]}")")/suite.bash" || exit 1

plan=$examples/stop_meets_data.plan
convert=$top/tools/csv_to_vcd

# ---- tables

if command -v python3 >/dev/null; then
    # Each example is the transaction of examples/probe_*.vcd: a START at 5 us, a STOP at 160 us.
    probe=$'5-160 service/probe_10\n1 transactions, 0 unexplained, status 0'
    "$convert" "$examples/probe_logic.csv" >logic.vcd
    same "Logic 2" "$probe" "$(answer capture "$plan" logic.vcd --scl "Channel 0" --sda "Channel 1")"
    "$convert" "$examples/probe_kingst.csv" >kingst.vcd
    same "Kingst" "$probe" "$(answer capture "$plan" kingst.vcd --scl "Channel 0" --sda "Channel 1")"
    "$convert" "$examples/probe_pulseview.csv" >pulseview.vcd
    same "PulseView" "$probe" "$(answer capture "$plan" pulseview.vcd --scl "I2C SCL" --sda "I2C SDA")"
    same "in parts of a second" $'5 us-160 us service/probe_10\n1 transactions, 0 unexplained, status 0' \
        "$(answer capture "$plan" logic.vcd --scl "Channel 0" --sda "Channel 1" --times si)"
    same "a table from a pipe" "$(cat logic.vcd)" "$("$convert" /dev/stdin < <(cat "$examples/probe_logic.csv"))"
    same "one that stands in a file" "$(cat logic.vcd)" "$("$convert" /dev/stdin <"$examples/probe_logic.csv")"

    # dump UNIT NAMES CHANGES..: a dump of signals with these names, which commas part.
    dump() {
        local names name code=33
        echo '$version csv_to_vcd $end'
        echo "\$timescale 1 $1 \$end"
        echo '$scope module csv $end'
        IFS=, read -ra names <<<"$2"
        for name in "${names[@]}"; do
            printf '$var wire 1 %b %s $end\n' "\\x$(printf %x $code)" "$name"
            code=$((code + 1))
        done
        printf '%s\n' '$upscope $end' '$enddefinitions $end' "${@:3}"
    }
    # table NAME WANTED TEXT ARG..: the dump of a table.
    table() {
        printf '%b' "$3" >table.csv
        same "$1" "$2" "$("$convert" table.csv "${@:4}" 2>&1)"
    }

    both=$(dump us 'scl,sda' '#0 1! 1"' '#5 0"')
    table "microseconds" "$both" 'Time [s],scl,sda\n0,1,1\n0.000005,1,0\n'
    table "no end of the last line" "$both" 'Time [s],scl,sda\n0,1,1\n0.000005,1,0'
    table "ends of lines with a return" "$both" 'Time [s],scl,sda\r\n0,1,1\r\n0.000005,1,0\r\n'
    table "a byte order mark" "$both" '\xef\xbb\xbfTime [s],scl,sda\n0,1,1\n0.000005,1,0\n'
    table "semicolons, and commas in numbers" "$both" 'Time (s);scl;sda\n0,0;1;1\n0,000005;1;0\n'
    table "tabs" "$both" 'Time\tscl\tsda\n0\t1\t1\n5e-6\t1\t0\n'
    table "powers of ten" "$both" 'time[s],scl,sda\n0.0E+0,1,1\n0.5E-5,1,0\n'
    table "quotation marks, and blanks" "$both" '"Time [s]", "scl" , sda\n0, 1, 1\n+0.000005, 1 ,0\n'
    table "its own unit" "$both" 'Time [ms],scl,sda\n0,1,1\n0.005,1,0\n'
    table "a micro sign" "$both" 'Time [\xc2\xb5s],scl,sda\n0,1,1\n5,1,0\n'
    table "rows without a change, and empty lines at the end" "$both" \
        'Time [s],scl,sda\n0,1,1\n0.000003,1,1\n0.000005,1,0\n0.000009,1,0\n\n\n'
    table "times before 0" "$both" 'Time [s],scl,sda\n-0.000002,1,1\n0.000003,1,0\n'
    table "a first time above 0" "$(dump us 'scl,sda' '#2 1! 1"' '#3 0"')" 'Time [s],scl,sda\n0.000002,1,1\n0.000003,1,0\n'
    table "dates" "$(dump us 'scl,sda' '#0 1! 1"' '#1000005 0"')" \
        'Time,scl,sda\n2026-11-25T23:59:59.5+00:00,1,1\n2026-11-26T00:00:00.500005000Z,1,0\n'
    table "dates with a decimal comma" "$(dump us 'scl,sda' '#0 1! 1"' '#1000005 0"')" \
        'Time;scl;sda\n2026-11-25T23:59:59,5+00:00;1;1\n2026-11-26T00:00:00,500005;1;0\n'
    table "a decimal comma in quotation marks" "$(dump us 'scl,sda' '#0 1! 1"' '#5 0"')" \
        'Time,scl,sda\n"2026-11-25 10:00:00,000001",1,1\n"2026-11-25 10:00:00,000006",1,0\n'
    table "dates with picoseconds" "$(dump ps 'scl,sda' '#0 1! 1"' '#1000000000001 0"')" \
        'Time;scl;sda\n2026-11-25T23:59:59,123456789012Z;1;1\n2026-11-26T00:00:00,123456789013Z;1;0\n'
    table "dates with a zone" "$(dump s 'scl,sda' '#0 1! 1"' '#1 0"')" \
        'Time [s],scl,sda\n2026-11-25T12:00:00+01:00,1,1\n2026-11-25T11:00:01Z,1,0\n'
    table "equal times" "$(dump us 'scl,sda' '#0 1! 1"' '#5 0!' '#5 0"')" 'Time [s],scl,sda\n0,1,1\n0.000005,0,1\n0.000005,0,0\n'
    table "names with blanks" "$(dump ms 'I2C SCL,I2C SDA' '#0 1! 1"' '#1 0! 0"')" 'Time [s],I2C  SCL,I2C SDA\n0,1,1\n0.001,0,0\n'

    # The coarsest unit in which all times are whole.
    table "seconds" "$(dump s 'scl' '#0 1!' '#20 0!')" 'Time [s],scl\n0,1\n20.0,0\n'
    table "nanoseconds" "$(dump ns 'scl' '#0 1!' '#1000 0!' '#1001 1!')" 'Time [us],scl\n0,1\n1,0\n1.001,1\n'
    table "picoseconds" "$(dump ps 'scl' '#0 1!' '#41667 0!')" 'Time [s],scl\n0,1\n0.000000041667,0\n'
    table "femtoseconds" "$(dump fs 'scl' '#0 1!' '#1 0!')" 'Time [s],scl\n0,1\n0.000000000000001,0\n'

    # Samples: the third comes two samples after the first.
    samples='1,1\n1,1\n1,0\n'
    third=$(dump us 'D0,D1' '#0 1! 1"' '#2 0"')
    table "sigrok's sample rate" "$third" "; CSV generated by libsigrok 0.5.2\n; Channels (2/2): D0, D1\n; Samplerate: 1 MHz\nlogic,logic\n$samples"
    table "sigrok's other line of it" "$third" "; Channels (2/2): D0, D1\nMETA samplerate: 1000000\nlogic,logic\n$samples"
    table "sigrok's times" "$(dump us 'D0,D1' '#1 1! 1"' '#3 0"')" \
        '; CSV generated by libsigrok 0.5.2\n; Channels (2/2): D0, D1\n; Samplerate: 1 MHz\nmicroseconds,logic,logic\n1,1,1\n2,1,1\n3,1,0\n'
    for rate in 1MHz '1 MHz' 1M 1000kHz 1000000 0.001G; do
        table "a rate of $rate" "$third" "D0,D1\n$samples" --rate "$rate"
    done
    table "another rate than the file's" "$(dump ms 'D0,D1' '#0 1! 1"' '#2 0"')" "; Samplerate: 1 MHz\nD0,D1\n$samples" --rate 1kHz
    # 2 samples of 24 MHz take 83333.3 ps, and 3 take 125 ns.
    table "24 MHz" "$(dump ps 'D0' '#0 1!' '#83333 0!' '#125000 1!')" '; Samplerate: 24 MHz\nD0\n1\n1\n0\n1\n'

    # The 95th signal has a code of two characters.
    { printf 'Time [s]'; printf ',c%s' {1..95}; echo; printf 0; printf ',0%.0s' {1..95}; echo; } >table.csv
    same "95 columns" '$var wire 1 ~ c94 $end
$var wire 1 !! c95 $end' "$("$convert" table.csv | grep 'c9[45] ')"

    # no_table NAME WORDS TEXT ARG..: a table that is refused, with nothing on standard output.
    no_table() {
        printf '%b' "$3" >table.csv
        "$convert" table.csv "${@:4}" >out 2>err
        same "$1" "2 csv_to_vcd: table.csv: $2" "$? $(cat out err)"
    }
    no_table "an empty file" "it has no line with the names of columns" ''
    no_table "no names" "line 1: a row stands where the names of the columns are expected" '0,1,1\n5,1,0\n'
    no_table "no names, below comments" "line 2: a row stands where the names of the columns are expected" '; Samplerate: 1 MHz\n1,1\n'
    no_table "no time and no rate" \
        "line 1: the first column has no times ('Time [s]'), and there is no sample rate: give --rate" 'scl,sda\n1,1\n'
    no_table "times and a rate" "line 1: --rate is for a table without times, and this one has a column of them" \
        'Time [s],scl\n0,1\n' --rate 1MHz
    no_table "no rows" "line 1: there are no rows below the names of the columns" 'Time [s],scl\n'
    no_table "times alone" "line 1: it has no column beside that of times" 'Time [s]\n0\n'
    no_table "a column without a name" "line 1: a column has the name '', which no signal can have" 'Time [s],scl,\n0,1,\n'
    no_table "two columns with one name" "line 1: two columns have the name 'scl'" 'Time [s],scl,scl\n0,1,1\n'
    no_table "a name with an end" "line 1: a column has the name 'a \$end', which no signal can have" 'Time [s],a $end\n0,1\n'
    no_table "an unknown unit" "line 1: the unit of the times is not known" 'Time [min],scl\n0,1\n'
    no_table "times of sigrok without a unit" "line 3: the times have no unit: have sigrok-cli write them without 'time=true'" \
        '; CSV generated by libsigrok 0.5.2\n; Samplerate: 1 MHz\nTime,D0\n1,1\n'
    no_table "times that are all the same" "line 1: all times are the same" 'Time [s],scl\n0,1\n0,0\n'
    no_table "a value that is no bit" "line 3: '1.0' in the column 'sda' is neither 0 nor 1" 'Time [s],scl,sda\n0,1,1\n1,1,1.0\n'
    no_table "a level that is not known" "line 2: 'X' in the column 'scl' is neither 0 nor 1" 'Time [s],scl\n0,X\n'
    no_table "a time that is none" "line 3: 'now' is no time" 'Time [s],scl\n0,1\nnow,0\n'
    no_table "a number among dates" "line 3: a number stands in the column of times, which has dates above it" \
        'Time,scl\n2026-11-25T00:00:00Z,1\n0.5,0\n'
    no_table "a date among numbers" "line 4: a date stands in the column of times, which has numbers above it" \
        'Time,scl\n0,1\n0.5,0\n2026-11-25T00:00:00Z,1\n'
    no_table "a date that is none" "line 2: '2026-13-01T00:00:00Z' is no time" 'Time [s],scl\n2026-13-01T00:00:00Z,1\n'
    no_table "a time that goes back" "line 4: this time is below the one before it" 'Time [s],scl\n0,1\n2,0\n1,1\n'
    no_table "a part of a femtosecond" "line 3: a time has parts of a femtosecond" 'Time [s],scl\n0,1\n0.0000000000000005,0\n'
    no_table "a number of very many digits" "line 2: '$(printf '9%.0s' {1..5000})' is no time" "Time [s],scl\n$(printf '9%.0s' {1..5000}),1\n"
    no_table "times beyond 64 bits" "line 1: the times are too long for a dump in fs" \
        'Time [s],scl\n0.000000000000001,1\n18446.744073709551616,0\n'
    table "the greatest time" "$(dump fs 'scl' '#1 1!' '#18446744073709551615 0!')" \
        'Time [s],scl\n0.000000000000001,1\n18446.744073709551615,0\n'
    no_table "a short row" "line 3: 2 columns stand where 3 have names" 'Time [s],scl,sda\n0,1,1\n1,1\n'
    no_table "a long row" "line 2: 4 columns stand where 3 have names" 'Time [s],scl,sda\n0,1,1,1\n'
    no_table "an empty line among rows" "line 3: an empty line stands among the rows" 'Time [s],scl\n0,1\n\n1,0\n'
    same "a file that is not there" "csv_to_vcd: missing.csv: No such file or directory" "$("$convert" missing.csv 2>&1)"
    same "a rate that is none" "csv_to_vcd: --rate takes a whole number of samples a second, as 1MHz" "$("$convert" a.csv --rate fast 2>&1)"
    same "its help" "usage: tools/csv_to_vcd FILE [--rate RATE]" "$("$convert" --help | head -n 1)"
    same "a full disk" "csv_to_vcd: standard output: No space left on device" \
        "$("$convert" "$examples/probe_logic.csv" 2>&1 >/dev/full)"
    "$convert" >out 2>err
    same "no file" "2  usage: tools/csv_to_vcd FILE [--rate RATE]" "$? $(cat out) $(head -n 1 err)"
else
    echo "left out: tables (no python3)"
fi

# ---- files in other formats

# The first bytes of an FST file, and those of a session of sigrok.
printf '\0\0\0\0\0\0\0\1\111\0\0\0\0\0\0\0\0\n' >bus.fst
printf 'PK\3\4\24\0\0\0\0\0' >bus.sr
printf 'Time [s],Channel 0,Channel 1\n0.000000000,1,1\n' >bus.csv
fst='hint: this is an FST file, as GTKWave has it; a dump of it is written by'
session='hint: this is a ZIP archive, as a session of sigrok is (.sr); a dump of one is
hint: written by'
rows='hint: this looks like a table (CSV), as loggers export it; a dump of it is
hint: written by'
v2=$'refused V2 line 1\n'
for command in "capture $plan" decode learn signals "page $plan --capture"; do
    read -ra words <<<"$command"
    same "FST: ${words[0]}" "$v2$fst
hint:   fst2vcd bus.fst > bus.vcd, status 2" "$(answer "${words[@]}" bus.fst --hints always)"
    same "a session: ${words[0]}" "$v2$session
hint:   sigrok-cli -i bus.sr -O vcd > bus.vcd, status 2" "$(answer "${words[@]}" bus.sr --hints always)"
    same "a table: ${words[0]}" "$v2$rows
hint:   tools/csv_to_vcd bus.csv > bus.vcd, status 2" "$(answer "${words[@]}" bus.csv --hints always)"
    same "no hint: ${words[0]}" "${v2%$'\n'}, status 2" "$(answer "${words[@]}" bus.csv)"
done
same "FST in the place of a plan" "refused P3 line 1
hint: this is an FST file, as GTKWave has it: 'fst2vcd FILE' writes the dump
hint: that it holds, status 2" "$(answer check bus.fst --hints always)"
same "an FST file as objects" '{"kind":"hint","form":"sentence","text":"this is an FST file, as GTKWave has it; a dump of it is written by"}
{"kind":"hint","form":"line","text":"fst2vcd bus.fst > bus.vcd"}' \
    "$("$twire" decode bus.fst --hints always --format json 2>&1 | tail -n +2)"
same "a scope" "$fst" "$("$twire" decode bus.fst --scope top --hints always 2>&1 | sed -n 2p)"

# The name of the dump is another one, and a shell takes both.
command_for() {
    "$twire" decode "$1" --hints always 2>&1 | sed -n 's/^hint:   //p'
}
cp bus.fst odd.vcd
same "FST under another name" "fst2vcd odd.vcd > odd.vcd.vcd" "$(command_for odd.vcd)"
cp bus.csv "my bus.csv"
same "a name with a blank" 'tools/csv_to_vcd "my bus.csv" > "my bus.vcd"' "$(command_for "my bus.csv")"
cp bus.csv '$a.csv'
same "a name with a dollar sign" "tools/csv_to_vcd '\$a.csv' > '\$a.vcd'" "$(command_for '$a.csv')"
cp bus.sr ./-x.sr
same "a name that looks like an option" "sigrok-cli -i ./-x.sr -O vcd > ./-x.vcd" "$("$twire" decode --hints always -- -x.sr 2>&1 | sed -n 's/^hint:   //p')"

# A pipe cannot be read once more, but its first line is known where that is refused.
same "FST from a pipe" "$v2$fst
hint:   fst2vcd FILE.fst > FILE.vcd, status 2" "$(answer decode - --hints always < <(cat bus.fst))"
same "a session from a pipe" "$v2$session
hint:   sigrok-cli -i FILE.sr -O vcd > FILE.vcd, status 2" "$(answer decode /dev/stdin --hints always < <(cat bus.sr))"
mkfifo bus.fifo
cat bus.csv >bus.fifo &
same "a table from a FIFO" "$v2$rows
hint:   tools/csv_to_vcd FILE.csv > FILE.vcd, status 2" "$(answer capture "$plan" bus.fifo --hints always)"
wait

# What a table begins with, and what is none.
is_table() {
    printf '%b' "$2" >given
    same "a table: $1" "tools/csv_to_vcd given > given.vcd" "$(command_for given)"
}
is_table "Kingst" 'Time[s], Channel 0, Channel 1\n'
is_table "sigrok" '; CSV generated by libsigrok 0.5.2\n; Channels (2/2): D0, D1\n'
is_table "sigrok without comments" 'logic,logic\n1,1\n'
is_table "numbers" '0,1,1\n'
is_table "semicolons" '"Time (s)";"scl";"sda"\n'
is_table "tabs" 'Time\tscl\tsda\n'
is_table "empty lines above it" '\n\r\n Time,scl\n'
for text in 'hello world\n' 'a\tb\n' '#1,2\n' '$date, 1\n' 'a,\x01b\n' '{"a": 1}\n' ''; do
    printf '%b' "$text" >given
    same "no table: $text" "" "$(command_for given | grep csv_to_vcd)"
done

# ---- samples that are too far apart

# clocked NAME RISES FALLS: a START, and as many rises of SCL as RISES has digits: where its digit is 1 SDA changes in the sample
# in which SCL rises; where that of FALLS is 1, in the one in which SCL falls after it. Then a STOP.
clocked() {
    local k sda=0 time=20 line
    {
        printf '%s\n' '$timescale 1 us $end $var wire 1 ! scl $end $var wire 1 " sda $end $enddefinitions $end' '#0 1! 1"' \
            '#10 0"' '#15 0!'
        for ((k = 0; k < ${#2}; k++)); do
            line="#$time 1!"
            if [[ ${2:k:1} == 1 ]]; then
                sda=$((1 - sda))
                line+=" $sda\""
            fi
            echo "$line"
            line="#$((time + 5)) 0!"
            if [[ ${3:k:1} == 1 ]]; then
                sda=$((1 - sda))
                line+=" $sda\""
            fi
            echo "$line"
            time=$((time + 10))
        done
        echo "#$((time + 1)) 0\""
        echo "#$((time + 2)) 1!"
        echo "#$((time + 3)) 1\""
    } >"$1"
}
# said ARG..: what hints say of a capture, on one line.
said() {
    "$twire" "$@" --hints always 2>&1 >/dev/null | sed -n 's/^hint: //p' | paste -sd' '
}
# far ALL WITH: what is said where SCL rises so often, and SDA changes with so many of them.
far() {
    echo "SCL rises $1 times, and in $2 of these samples SDA changes too: the capture is undersampled, and what it shows may be wrong; record with at least 10 times the clock of the bus"
}
# The STOP has a rise of its own: of 7 others 2 have a change of SDA.
clocked far 0100100 1010100
same "far apart: 2 of 8" "$(far 8 2)" "$(said decode far | grep -o 'SCL rises.*clock of the bus')"
same "its lines" 'hint: SCL rises 8 times, and in 2 of these samples SDA changes too: the capture
hint: is undersampled, and what it shows may be wrong; record with at least 10
hint: times the clock of the bus' "$("$twire" learn far --hints always 2>&1 >/dev/null | sed -n 1,3p)"
for command in "capture $plan" "capture $plan --live" "capture $plan --explain" "capture $plan --summary --times si" "decode --live" \
    "decode --summary" learn "page $plan -o page.html --capture"; do
    read -ra words <<<"$command"
    same "far apart: $command" "$(far 8 2)" "$(said "${words[@]}" far | grep -o 'SCL rises.*clock of the bus')"
done
same "far apart, from a pipe" "$(far 8 2)" "$(said capture "$plan" - < <(cat far) | grep -o 'SCL rises.*clock of the bus')"
same "far apart, as an object" "{\"kind\":\"hint\",\"form\":\"sentence\",\"text\":\"$(far 8 2)\"}" \
    "$("$twire" decode far --hints always --format json 2>&1 >/dev/null | head -n 1)"
same "far apart, in a report that stays" "$("$twire" decode far 2>&1)" "$("$twire" decode far --hints always 2>/dev/null)"
falls=$(printf '1%.0s' {1..63})
rises=$(printf '0%.0s' {1..58})
clocked far "10101$rises" "$falls"
same "far apart: 3 of 64" "$(far 64 3)" "$(said decode far | grep -o 'SCL rises.*clock of the bus')"

# near NAME RISES FALLS: one of which nothing is said.
near() {
    clocked near "$2" "$3"
    same "$1" "" "$(said capture "$plan" near | grep -o 'undersampled')"
}
near "not far apart: 1 of 8" 0000100 1111111
near "not far apart: 2 of 64" "10100$rises" "$falls"
near "7 rises are too few to tell" 111111 000000
# A simulator without delays changes SDA as SCL falls, each time.
near "SDA changes where SCL falls" 000000000000000000 111111111111111111
# One signal for both lines rises with itself.
same "one signal for both lines" "" "$(said decode far --sda scl | grep -o 'undersampled')"
# A line that comes to be known does not rise.
{ sed 1q far; for k in {1..40}; do echo "#$k x! x\" #${k}5 1! 1\" #${k}8 1!"; done; } | sed 's/#\([0-9]*\) x/#\10 x/' >known
same "lines that come to be known" "" "$(said decode known | grep -o 'undersampled')"

# All examples have enough samples.
for vcd in "$examples"/*.vcd; do
    options=()
    case ${vcd##*/} in
        probe_sigrok.vcd) options=(--scl D0 --sda D1) ;;
        probe_pulseview.vcd) options=(--scl "I2C SCL" --sda "I2C SDA") ;;
        probe_logic.vcd) options=(--scl "Channel 0" --sda "Channel 1") ;;
    esac
    same "enough samples: ${vcd##*/}" "0 " "$("$twire" decode "$vcd" "${options[@]}" --hints always >out 2>err; echo "$? $(grep -o undersampled err)")"
done

finish
