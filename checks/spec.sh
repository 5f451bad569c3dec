#!/usr/bin/env bash
# docs/inside/SPEC.md is true: what the contract of `run` rests on, definition by definition, is in
# the parts that a reader has to agree with, and nothing else is; what the promise itself rests on
# is in the first two, and in no more than sixteen files of the first; each file of crates/*/specs
# is on one list; and the table at its head has the files, the lines and the hours of each part.
set -u
export LC_ALL=C.UTF-8
cd "$(dirname "${BASH_SOURCE[0]}")/.." || exit 1
. checks/words.bash
needs perl perl || skip 'nothing reads the definitions'
page=docs/inside/SPEC.md
work=$(mktemp -d)
trap 'rm -rf "$work"' EXIT

# `PART CRATE FILE` for each file that the page names: a row has a crate and a file below its
# specs/, or several in the lists of what a reader need not look at.
awk -F '|' '
    /^## [1-9]\./ { split($0, words, /[ .]+/); part = words[2] }
    part && /^\| `[a-z_]+` \| `/ {
        split($2, crate, "`")
        count = split($3, files, "`")
        for (at = 2; at < count; at += 2) print part, crate[2], files[at]
    }' "$page" > "$work/listed"
# CRATE FILE NAME LINES for each definition.
perl checks/reached.pl > "$work/all" || fail 'checks/reached.pl ends with a fault'
perl checks/reached.pl job_run Published IsPublished > "$work/promise" \
    || fail 'checks/reached.pl ends with a fault'
for reached in all promise; do
    cut -d ' ' -f 1,2 "$work/$reached" | sort -u > "$work/$reached.files"
done
# parts PARTS: the files that these parts name.
parts() {
    awk -v parts="$1" 'index(parts, $1) { print $2, $3 }' "$work/listed" | sort
}
counted 100 "$(wc -l < "$work/all.files")" 'files that the contract of run rests on'
counted 20 "$(wc -l < "$work/promise.files")" 'files that the promise rests on'

while read -r crate file; do
    first=$(grep -m 1 "^$crate $file " "$work/all" | cut -d ' ' -f 3)
    fail "$page has not $file of $crate in its parts 1 to 4, of which the contract of run" \
        "reaches $first (checks/reached.pl why $crate $file $first)"
done < <(comm -23 "$work/all.files" <(parts 1234))
while read -r crate file; do
    fail "$page has $file of $crate in its parts 1 to 4, which the contract of run does not reach"
done < <(comm -13 "$work/all.files" <(parts 1234))
while read -r crate file; do
    fail "$page has not $file of $crate in its parts 1 and 2, which the promise reaches"
done < <(comm -23 "$work/promise.files" <(parts 12))
while read -r crate file; do
    fail "$page has $file of $crate in its parts 1 and 2, which the promise does not reach"
done < <(comm -13 "$work/promise.files" <(parts 12))
[ "$(parts 1 | wc -l)" -le 16 ] || fail "the first part of $page has more than sixteen files"

# Each file that says something is on one list, and no other.
find crates -path 'crates/*/specs/*.antt' -not -path 'crates/*/out/*' \
    -exec grep -lvE '^(pub mod .*|--.*|)$' {} + \
    | sed -E 's|^crates/([a-z_]+)/specs/(.*)\.antt$|\1 \2|' | sort -u > "$work/specs"
counted 200 "$(wc -l < "$work/specs")" 'files of definitions'
while read -r crate file; do
    fail "$page does not name $file of $crate"
done < <(comm -23 "$work/specs" <(parts 123456 | uniq))
while read -r crate file; do
    fail "$page names $file of $crate, which is not there"
done < <(comm -13 "$work/specs" <(parts 123456 | uniq))
while read -r crate file; do
    fail "$page names $file of $crate more than once"
done < <(parts 123456 | uniq -d)

# The table of parts: files, lines of the definitions that are reached, and hours at four hundred
# lines each; the lines within a tenth.
rows=0
while IFS='|' read -r _ part files lines hours _; do
    rows=$((rows + 1))
    part=${part//[^0-9]/}
    found=$(parts "$part" | wc -l)
    [ "$found" -eq "$((files))" ] || fail "part $part of $page has $found files, and not $files"
    counts=$(awk 'FILENAME ~ /listed$/ { if ($1 == part) is[$2 " " $3] = 1; next }
        is[$1 " " $2] { lines += $4 } END { print lines }' part="$part" "$work/listed" "$work/all")
    apart=$((counts - lines))
    [ $((10 * ${apart#-})) -le "$counts" ] \
        || fail "part $part of $page has $counts lines, and not about $lines"
    [ $(((counts + 200) / 400)) -eq "${hours//[^0-9]/}" ] \
        || fail "part $part of $page takes $(((counts + 200) / 400)) hours, and not $hours"
done < <(grep -E '^\| [1-4]\. ' "$page" | tr -d ',')
counted 4 "$rows" 'parts with their size'

verdict
