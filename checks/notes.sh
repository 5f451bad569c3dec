#!/usr/bin/env bash
# The example lines of the pages on registry dumps, feeds and overrides, taken from their tables:
# each has to be noted with the code that its row gives. (Those of statistics are in
# checks/guide.sh.)
set -u
cd "$(dirname "${BASH_SOURCE[0]}")/.." || exit 1
docs=$PWD/docs
. checks/with_program.bash
count=0

# rows PAGE LETTER: for each row of the table of examples the code, and then the cell.
rows() {
    sed -n '/^| code | .*example line/,/^$/p' "$docs/$1" \
        | sed -n "s/^| \\($2[0-9][0-9]\\) | \\(.*\\) | [^|]* |\$/\\1 \\2/p"
}

# spans CELL: the lines that the cell shows, in the order in which they stand in a file. Some bytes
# are written as \xNN.
spans() {
    local lines
    lines=$(grep -oE '`[^`]*`' <<< "$1" | tr -d '`')
    case "$1" in
        *'once more'*) lines=$(printf '%s\n%s' "$lines" "$lines") ;;
        *' behind `'*) lines=$(tac <<< "$lines") ;;
    esac
    printf '%b\n' "$lines"
}

# noted CODE LINE WHERE: the report has a note with this code on a line that begins so.
noted() {
    "$program" build job > printed 2> told || fail "$3: the job ends otherwise: $(cat printed told)"
    grep -qE "^$2 $1\$" printed \
        || fail "the example of $1 in $3 is not noted so: $(tr '\n' ' ' < printed)"
    count=$((count + 1))
}

printf 'epoch 1\noverrides own\nreport\n' > job
while read -r code cell; do
    spans "$cell" > own
    noted "$code" 'overrides - [0-9]+' overrides.md
done < <(rows overrides.md O | grep '`')

# A feed's lines are covered by an object of all that the examples speak of.
named='geofeed: https://a.example/f.csv'
printf '%s\n' 'inetnum: 0.0.0.0/0' "$named" '' 'inet6num: ::/0' "$named" > dump
printf '%s\n' 'epoch 1' 'rpsl r dump' 'feed https://a.example/f.csv feed' report > job
while read -r code cell; do
    case "$code" in
        F09)
            printf '%s\n' 'inetnum: 192.0.2.0/24' "$named" > dump
            spans "${cell%% in a feed*}" > feed
            ;;
        F10) printf '192.0.2.0/24,DE,,%01025d\n' 0 > feed ;;
        *) spans "$cell" > feed ;;
    esac
    noted "$code" 'feed https://a.example/f.csv [0-9]+' feeds.md
done < <(rows feeds.md F)

# An object for lines that are none by themselves.
printf 'epoch 1\nrpsl r dump\nreport\n' > job
object='inetnum: 192.0.2.0 - 192.0.2.255'
while read -r code cell; do
    case "$code" in
        P01) { echo "descr: $(printf '%01048577d' 0)"; } > dump ;;
        P02) spans "$cell" > dump ;;
        P03)
            for line in 1 2; do
                { spans "$cell" | sed -n "${line}p" && echo "$named"; } > dump
                noted P03 'rpsl r 1' dumps.md
            done
            ;;
        P07) printf '%s\n' "$object" "$named" "$(spans "$cell")" > dump ;;
        P08)
            printf '%s\n' "$object" "$named" '' "$object" "${named/a.example/b.example}" > dump
            ;;
        *) printf '%s\n' "$object" "$(spans "$cell" | sed '/^[a-z-]*: /!d')" > dump ;;
    esac
    noted "$code" 'rpsl r [0-9]+' dumps.md
done < <(rows dumps.md P)

[ "$count" -ge 29 ] || fail "the pages have examples of $count codes alone"
verdict
