#!/usr/bin/env bash
# The documents: each command that README and GUIDE show prints what stands below it; each plan and brief there is read; the
# lines of the table of data-sheet transactions mean what the text says; links and anchors lead somewhere; and the rules of the
# pages (no line of prose above 120 columns, no cell above 120, no paragraph above 600, no heading twice).
source "$(dirname -- "$(readlink -f -- "${BASH_SOURCE[0]}")")/suite.bash" || exit 1

mkdir bin
ln -s "$top/examples" examples
ln -s "$twire" bin/twire
export PATH=$work/bin:$PATH

# ---- commands, plans and briefs

# Whether every command of a block is there: one that needs a tool which the machine lacks is left out.
run_console() {
    local page=$1 command='' wanted='' line
    while IFS= read -r line; do
        if [[ $line == '$ '* ]]; then
            run_command "$page" "$command" "$wanted"
            command=${line#\$ }
            wanted=
        else
            wanted+=$line$'\n'
        fi
    done <block
    run_command "$page" "$command" "$wanted"
}

run_command() {
    [[ -n $2 ]] || return 0
    same "$1: $2" "${3%$'\n'}" "$(bash -c "$2" 2>&1 </dev/null)"
}

# run_block PAGE LANGUAGE NAME: the block is in the file `block`; a brief or a plan with a name is kept under it.
run_block() {
    case $2 in
        console) run_console "$1" ;;
        brief) same "$1: a brief that is read: $(sed -n 2p block)" 0 "$(twire expand block >found 2>&1; echo $?)" ;;
        plan) same "$1: a plan that is read: $(sed -n 2p block)" 0 "$(twire print block >found 2>&1; echo $?)" ;;
    esac
    [[ -z $3 ]] || cp block "$3"
}

# run_blocks PAGE
run_blocks() {
    local language='' name='' line
    while IFS= read -r line; do
        if [[ -n $language && $line == '```' ]]; then
            run_block "$1" "$language" "$name"
            language=
            name=
        elif [[ -n $language ]]; then
            printf '%s\n' "$line" >>block
        elif [[ $line == '```'* ]]; then
            language=${line#'```'}
            language=${language:-text}
            : >block
        elif [[ $line =~ Save\ this\ as\ \`([a-z.]+)\` ]]; then
            name=${BASH_REMATCH[1]}
        fi
    done <"$top/$1"
}

run_blocks README.md
run_blocks docs/GUIDE.md
run_blocks docs/PLANS.md

# ---- the table of data-sheet transactions

sed -n '/^```brief/,/^```/p' "$top/docs/GUIDE.md" | sed -n '/^brief 2/,/^```/p' | sed '/^```/,$d' >devices
# (a family is many messages, of several lengths: the text leaves it out)
grep -o '`message [^`]*;`' "$top/docs/GUIDE.md" | tr -d '`' | grep -v '[*][0-9]*[.][.]' >recipes
names=$(awk '{ printf " %s", $2 }' recipes)
same "the table has recipes" yes "$( (($(wc -l <recipes) > 10)) && echo yes)"

# Two controllers that both may send one of them are safe.
while IFS= read -r recipe; do
    read -r _ name _ <<<"$recipe"
    { cat devices && printf '%s\n' "$recipe" "controller a $name ;" "controller b $name ;"; } >one.brief
    same "the line of $name beside itself" "safe: 1 pairs" "$(twire expand one.brief | twire check - 2>&1)"
done <recipes

# A family of it is read.
same "the family in the table" "32" "$({ cat devices && grep -o '`message pages [^`]*;`' "$top/docs/GUIDE.md" | tr -d '`'; } >one.brief
    twire expand one.brief | grep -c '^message pages_')"

# Two that may send all of them have the unsafe pairs that the text names.
{ cat devices recipes && printf '%s\n' "controller a$names ;" "controller b$names ;"; } >all.brief
twire expand all.brief -o all.plan
same "all lines of the table together" "$(printf '%s\n' 'a/get10 b/put10:' 'a/page b/random:' 'a/put10 b/get10:' 'a/random b/page:')" \
    "$(twire check all.plan | awk '/^pair/ { print $3, $4 }' | sort)"
same "how many pairs they have" "unsafe: 4 of 361 pairs" "$(twire check all.plan | tail -n 1)"
same "the text says so" 1 "$(tr '\n' ' ' <"$top/docs/GUIDE.md" | grep -c 'four of 361 pairs are unsafe')"

# ---- links

# anchors PAGE: the names of its headings, as browsers of repositories make them.
anchors() {
    awk '/^```/ { inside = !inside } !inside && /^#+ / { sub(/^#+ /, ""); print tolower($0) }' "$1" |
        sed -e 's/[^a-z0-9 _-]//g' -e 's/ /-/g'
}

cd -- "$top" || exit 1
pages=(README.md docs/*.md tests/cases/README.md)
for page in "${pages[@]}"; do
    same "$page: headings that stand twice" "" "$(anchors "$page" | sort | uniq -d)"
    while IFS= read -r link; do
        file=${link%%#*}
        target=$(dirname -- "$page")/$file
        [[ -n $file ]] || target=$page
        if [[ ! -e $target ]]; then
            same "$page: a link" "a file" "$link"
        elif [[ $link == *#* ]]; then
            same "$page: the link $link" 1 "$(anchors "$target" | grep -cx -- "${link#*#}")"
        else
            passes
        fi
    done < <(awk '/^```/ { inside = !inside } !inside' "$page" | grep -oE '\]\([^)]*\)' | sed -e 's/^](//' -e 's/)$//' | grep -v '^https\?:')
done

# ---- the rules of the pages

for page in "${pages[@]}"; do
    [[ $page != docs/ARCHITECTURE.md ]] || continue
    same "$page: what is too long" "" "$(awk -v page="$page" '
        function end() { if (length(text) > 600 && !list) print FNR ": a paragraph of " length(text); text = ""; list = 0 }
        /^```/ { inside = !inside; end(); next }
        inside || /^    / && text == "" { next }
        /^\|/ {
            n = split($0, cells, "|")
            for (k = 2; k < n; k++) if (length(cells[k]) > 122) print FNR ": a cell of " length(cells[k]) - 2
            next
        }
        length($0) > 120 { print FNR ": a line of " length($0) }
        /^ *$/ || /^#/ { end(); next }
        /^ *([-*]|[0-9]+\.) / { end(); list = 1 }
        { text = text " " $0 }
        END { end() }' "$page")"
done

finish
