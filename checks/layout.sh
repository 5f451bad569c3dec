#!/usr/bin/env bash
# What `rt ci` does not look at: the lengths of lines and files, the first words of each file of
# code, must-fail edits for each library, a crate's place in the documents and in its layer, and
# that each function that docs/inside/ARCHITECTURE.md leads to is there.
set -u
export LC_ALL=C.UTF-8
cd "$(dirname "${BASH_SOURCE[0]}")/.." || exit 1
. checks/words.bash

[ "$(cat HANDLES)" = "Handles allowed: Threads." ] \
    || fail "HANDLES is not the one line that it must be"

crates=0
for crate in crates/*/; do
    crates=$((crates + 1))
    name=$(basename "$crate")
    grep -q "^$name:" crates.txt || fail "$name is not in crates.txt"
    for page in docs/inside/ARCHITECTURE.md docs/inside/PROVED.md; do
        grep -q "\`$name\`" "$page" || fail "$name is not in $page"
    done
    # In a crate of tests an edit would make nothing wrong of which a clause says something.
    if [[ "$name" != test_* ]] && grep -qs '^pub ' "$crate/src/lib.rt"; then
        edits=$(find "$crate/must-fail" -name '*.edit' 2> /dev/null | wc -l)
        [ "$edits" -ge 3 ] || fail "$name has $edits must-fail edits, fewer than three"
    fi
done
counted 20 "$crates" crates

# files NAMES..: the files of the repository with such names, without what `rt` makes.
files() {
    local words=() name
    for name in "$@"; do
        words+=(-o -name "$name")
    done
    find . \( -name .git -o -path './crates/*/out' \) -prune \
        -o -type f \( "${words[@]:1}" \) -print | sed 's/^\.\///' | sort
}

# Lines of at most 100 characters; `rt fmt` keeps an attribute in one line, however long, and the
# import of one name has no place to be cut.
kinds=('*.rt' '*.antt' '*.edit' '*.sh' '*.bash' '*.awk' '*.pl' '*.py' '*.cpp' '*.hpp')
while IFS=: read -r file line _; do
    fail "$file has more than 100 characters in line $line"
done < <(files "${kinds[@]}" | tr '\n' '\0' | xargs -0 grep -nE '^.{101}' /dev/null \
    | grep -vE '^[^:]*\.rt:[0-9]+: *#\[tactic\(|^[^:]*\.antt:[0-9]+:use [^, ]*$')

sources=0
while read -r lines told file; do
    sources=$((sources + 1))
    [ "$lines" -le 800 ] || fail "$file has $lines lines, more than 800"
    [ "$told" = '//!' ] || fail "$file does not begin with //! and what it is for"
done < <(files '*.rt' | xargs -d '\n' awk '
    function told() { if (file) print lines, begins, file }
    FNR == 1 { told(); file = FILENAME; begins = $1 == "//!" && NF > 1 ? $1 : "-" }
    { lines = FNR }
    END { told() }')
counted 200 "$sources" 'files of code'

# The limits, and the sizes of tables: NAME VALUE FILE. Each is a constant of its file, and outside
# tests its number stands nowhere else in code, definitions and their comments, however it is spelt;
# one of fewer than four digits is only looked for there.
limits='LONGEST_DUMP 1099511627776 feed_refs/src/limits.rt
MOST 2097152 feed_refs/src/limits.rt
LONGEST 1048576 rpsl_reader/src/limits.rt
LONGEST_NAME 63 rpsl_reader/src/limits.rt
LONGEST_STATS 268435456 nro_stats/src/read.rt
MOST 2097152 nro_stats/src/read.rt
LONGEST_FEED 67108864 feed_csv/src/read.rt
MOST 2097152 feed_csv/src/read.rt
LONGEST_OVERRIDES 67108864 override_rows/src/read.rt
MOST 2097152 override_rows/src/read.rt
LEAST_PART 262144 line_parts/src/part.rt
LONG_PART 4194304 line_parts/src/rounds.rt
MOST_FIELDS 8 csv_lines/src/bare.rt
MOST_TAILS 16384 csv_lines/src/tails.rt
LONGEST 1024 geo_terms/src/places/fields.rt
FIRST_SLOTS 64 geo_terms/src/places.rt
FIRST 64 geo_terms/src/places/slots.rt
MOST 4194304 geo_terms/src/places/slots.rt
FIRST_SLOTS 1024 trie_core/src/others.rt
MOST_PIECES 64 fan_work/src/forks.rt
MOST_TOGETHER 16 job_run/src/course.rt
FIRST_SLOTS 64 mmdb_data/src/full_values.rt
VALUES 100000 mmdb_data/src/budget.rt
BYTES 67108864 mmdb_data/src/budget.rt
MOST 16843036 mmdb_data/src/sizes.rt
LEVELS 32 mmdb_data/src/sizes.rt
GAP 16 mmdb_file/src/numbers.rt
LONGEST_JOB 1048576 job_lines/src/job.rt
LONGEST_NAME 255 job_lines/src/names.rt
LONGEST_WORD 64 job_lines/src/names.rt
MOST_PIECES 64 job_lines/src/form.rt
LONGEST_FILE 1073741824 file_lookup/src/lookup.rt
LARGEST_KEPT 33488896 geofeed/src/main.rt'

# numbers FILES..: each number in them as VALUE FILE LINE, where 1,024, 1_024, 1 << 10 and 2 ^ 10
# are one.
numbers() {
    awk '{
        line = $0
        while (match(line, /(1 << |2 ?\^ ?)[0-9]+/)) {
            power = substr(line, RSTART, RLENGTH)
            sub(/.*[^0-9]/, "", power)
            printf "%.0f %s %d\n", 2 ^ power, FILENAME, FNR
            line = substr(line, 1, RSTART - 1) " " substr(line, RSTART + RLENGTH)
        }
        while (match(line, /[0-9],[0-9][0-9][0-9]/))
            line = substr(line, 1, RSTART) substr(line, RSTART + 2)
        count = split(line, words, /[^0-9A-Za-z_]+/)
        for (at = 1; at <= count; at++) {
            word = words[at]
            sub(/_?[iu](8|16|32|64|128|size)$/, "", word)
            gsub(/_/, "", word)
            if (word ~ /^[0-9]+$/) printf "%s %s %d\n", word, FILENAME, FNR
        }
    }' "$@"
}

rows=0
while read -r name value file; do
    rows=$((rows + 1))
    line=$(grep -nE "const $name: [a-z0-9]+ = " "crates/$file" | cut -d: -f1)
    numbers "crates/$file" | grep -qxF "$value crates/$file ${line:-0}" \
        || fail "crates/$file does not say that $name is $value"
done <<< "$limits"
counted 29 "$rows" limits
# The format's own limits of records, which mmdb_tree has, are powers of two as some of these are.
mapfile -t told < <(files '*.rt' '*.antt' | grep -E '^crates/[a-z_]+/(src|specs)/' \
    | grep -v '/test_\|/mmdb_tree/')
while read -r value found; do
    named=$(grep -cE "^[A-Z_]+ $value " <<< "$limits")
    [ "$found" -eq "$named" ] \
        || fail "$value stands in $found places, and $named of them are limits"
done < <(numbers "${told[@]}" | awk -v limits="$limits" '
    BEGIN {
        count = split(limits, words)
        for (at = 2; at <= count; at += 3) is_limit[words[at]] = words[at] >= 1000
    }
    is_limit[$1] { found[$1]++ }
    END { for (value in found) print value, found[value] }')

# The table of layers: at most nine, each library and the program in one of them, and each crate
# that it uses in the same or an earlier one. And each of them has a symptom.
map=docs/inside/ARCHITECTURE.md
declare -A layer=()
while IFS='|' read -r _ number crates _; do
    number=${number//[^0-9]/}
    [ "$number" -le 9 ] || fail "$map has more than nine layers"
    for name in $(grep -oE '`[a-z_]+`:' <<< "$crates" | tr -d '`:'); do
        [ -z "${layer[$name]:-}" ] || fail "$map has $name in two layers"
        [ -d "crates/$name" ] || fail "$map has $name in a layer, which is not there"
        layer[$name]=$number
    done
done < <(sed -n '/^## Layers/,/^## Where/p' "$map" | grep -E '^\| [0-9]\.')
counted 20 "${#layer[@]}" 'crates in layers'
while IFS=': ' read -r name uses; do
    [ -d "crates/$name" ] || continue
    case "$name" in test_*) continue ;; esac
    [ -n "${layer[$name]:-}" ] || fail "$map has $name in no layer"
    for used in $uses; do
        [ "${layer[$used]:-0}" -le "${layer[$name]:-9}" ] \
            || fail "$map has $name in a layer before that of $used, which it uses"
    done
    sed -n '/^## Symptom/,/^## What may/p' "$map" | grep -q "\`$name\`" \
        || fail "$map has no symptom for $name"
done < <(grep -v '^#' crates.txt)

# A row of the table of symptoms names functions, and then each crate with its files; one of these
# has the function.
rows=0
while IFS='|' read -r _ _ names places _; do
    crate='' files=()
    for word in $(grep -oE '`[a-z_/.0-9]+`' <<< "$places" | tr -d '`'); do
        case "$word" in
            *.rt) files+=("crates/$crate/src/$word") ;;
            *) crate=$word ;;
        esac
    done
    for name in $(grep -oE '`[A-Za-z_:]+`' <<< "$names" | tr -d '`'); do
        rows=$((rows + 1))
        grep -qE "(fn|trait) ${name##*::}\>" "${files[@]}" \
            || fail "$map looks for $name in ${files[*]}, which do not have it"
    done
done < <(sed -n '/^## Symptom/,/^## What may/p' "$map" | grep '^| ' | tail -n +2)
counted 40 "$rows" 'functions of the table of symptoms'

verdict
