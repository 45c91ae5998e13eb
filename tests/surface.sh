#!/usr/bin/env bash
# The public surface of the libraries, as tools/surface lists it: that each file has the part of it of which
# tests/expected/surface.txt has the checksum, so that a clause which is weakened or lost shows. What differs from a commit is
# shown by 'tools/surface --diff COMMIT'. Where a change of the surface is wanted:
#     tools/surface --sums >tests/expected/surface.txt
#
# And that each mutant which the gate does not try (tests/mutants) still changes something. It needs no program.
twire=none
source "$(dirname -- "$(readlink -f -- "${BASH_SOURCE[0]}")")/suite.bash" || exit 1


"$top/tools/surface" >found
held "tools/surface"
"$top/tools/surface" --sums >sums
held "tools/surface --sums"
diff -u --label tests/expected/surface.txt --label found "$tests/expected/surface.txt" sums
held "another surface than tests/expected/surface.txt: tools/surface --diff COMMIT shows what differs"
[[ $(wc -l <sums) == $(grep -c '^== ' found) ]]
held "a checksum for each file that is listed"

# A copy of what is listed, in which lines are changed.
mkdir -p copy
(cd -- "$top" && tar -cf - tools/surface crates.txt crates/*/src crates/*/specs) | tar -xf - -C copy
held "a copy of the sources"

calls() {
    (cd -- copy && for crate in crates/*/specs; do grep -rh '^ *pub fn ' "${crate%specs}src"; done) | sed 's/^ *//; s/[(<].*//' | sort
}
comm -23 <(calls) <(grep '^ *pub fn ' found | sed 's/^ *//; s/[(<].*//' | sort) >missing
[[ ! -s missing ]]
held "calls that are not listed" missing

# shows NAME FILE SCRIPT: a file that sed has changed shows in the listing.
shows() {
    cp -- "copy/$2" kept
    sed -i "$3" "copy/$2"
    ! cmp -s kept "copy/$2" && ! copy/tools/surface | cmp -s found -
    held "$1 does not show"
    cp -- kept "copy/$2"
}

shows "a clause that is lost" crates/pair_walk/src/laws.rt '0,/^ *ensures /{/^ *ensures /d}'
shows "a condition that is new" crates/run_parts/src/devices/reading.rt '0,/^ *ensures /s/^ *ensures /    requires { 1 ≤ limit }\n&/'
shows "another result" crates/plan_core/src/plans.rt '0,/-> u32$/s/-> u32$/-> u64/'
shows "a call that is gone" crates/message_tree/src/bits.rt '0,/pub fn bit/s/pub fn bit/fn bit/'
shows "what a type keeps" crates/message_tree/src/counts.rt '/ghost positive/d'
shows "the second line of what a type keeps" crates/plan_core/src/plans.rt '/pub ghost numbered/{n;s/interrupts/controllers/}'
shows "a clause of a library without definitions" crates/run_ends/src/finishing.rt '0,/^ *ensures /{/^ *ensures /d}'
shows "what a trait promises" crates/run_parts/src/devices/traits.rt '/ensures failed/d'
shows "a definition" crates/plan_core/specs/Faults.antt 's/^IsSafe .*/IsSafe plan = Unit {0}/'
shows "a definition that only others name" crates/message_tree/specs/Sizes.antt 's/tail_bytes stop = 0/tail_bytes stop = 1/'
shows "a field of a definition" crates/report/specs/Checks.antt '/pub judged/d'

copy/tools/surface | cmp -s found -
held "the copy is listed as the sources are"
sed -i '1i // a comment, and lines below one another\n\n' copy/crates/report/src/lines.rt copy/crates/report/src/checks.rt
copy/tools/surface | cmp -s found -
held "a comment does not show"

# A mutant is a file, and pairs of an old line and a new one, of which the old one stands in the file once.
for edit in "$tests"/mutants/*/*.edit; do
    crate=${edit%/*}
    crate=$top/crates/${crate##*/}
    changes=0
    while IFS= read -r line; do
        case $line in
            "file: "*) file=$crate/${line#file: } ;;
            "old: "*) [[ $(grep -cF -- "${line#old: }" "$file") == 1 ]] && changes=$((changes + 1)) ;;
            "new: "*) changes=$((changes + 1)) ;;
            *) changes=0 && break ;;
        esac
    done <"$edit"
    ((changes > 0 && changes % 2 == 0))
    held "what a mutant changes: $edit"
done

finish
