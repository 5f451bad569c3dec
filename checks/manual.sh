#!/usr/bin/env bash
# The manual page has no errors of form. It names every command and every line of a job that the
# code knows; it and docs/stops.md every exit status, every stop line and every cause of a damaged
# file; it and the page of each kind of source every rule code.
set -u
cd "$(dirname "${BASH_SOURCE[0]}")/.." || exit 1
. checks/words.bash

count=0
while IFS= read -r status; do
    count=$((count + 1))
    grep -qx "\.B $status" geofeed.1 || fail "geofeed.1 does not name status $status"
    grep -q "^| $status |" docs/stops.md || fail "docs/stops.md does not name status $status"
done < <(sed -n 's/^    [A-Z][A-Za-z]* = \([0-9]*\),$/\1/p' crates/geofeed_cmd/src/status.rt)
counted 10 "$count" statuses

# named WORD PAGE..: each page has the word.
named() {
    local word=$1 page
    shift
    for page in "$@"; do
        grep -qw -- "$word" "$page" || fail "$page does not name $word"
    done
}

count=0
for code in $(sed -n 's/^ *\([PFSOA][0-9][0-9]\),.*/\1/p' crates/geo_terms/src/note.rt); do
    count=$((count + 1))
    case "$code" in
        P*) page=docs/dumps.md ;;
        F*) page=docs/feeds.md ;;
        S*) page=docs/statistics.md ;;
        O*) page=docs/overrides.md ;;
        A*) page=docs/precedence.md ;;
    esac
    named "$code" "$page"
    grep -qx "\.B $code" geofeed.1 || fail "geofeed.1 does not name $code"
done
counted 37 "$count" 'codes of rules'

# The words of commands, and those that begin the lines of a job, as the code compares them.
count=0
for word in $(sed -n 's/^ *if word == "\([a-z]*\)" {$/\1/p' crates/job_lines/src/spoken.rt); do
    count=$((count + 1))
    grep -q "^\.BI $word \"" geofeed.1 || fail "geofeed.1 does not have the command $word"
    grep -q "^  geofeed $word " crates/geofeed/src/main.rt || fail "--help does not have $word"
    grep -q "[' ]$word " contrib/geofeed.bash || fail "contrib/geofeed.bash does not have $word"
done
counted 7 "$count" commands
count=0
for word in $(cat crates/job_lines/src/{form,acts,kept}.rt 2> /dev/null \
    | sed -n 's/^ *if word == b"\([a-z]*\)".*/\1/p'); do
    count=$((count + 1))
    grep -qE "^\.BI? \"?$word( |\$)" geofeed.1 || fail "geofeed.1 does not have the line $word"
    grep -q "\`$word" docs/job-file.md || fail "docs/job-file.md does not have the line $word"
done
counted 13 "$count" 'lines of a job'
count=0
while IFS= read -r stop; do
    count=$((count + 1))
    named "$stop" geofeed.1 docs/stops.md
done < <(grep -ohE --exclude='*tests.rt' '"stop [a-z]+' crates/*/src/*.rt | tr -d '"' | sort -u)
counted 10 "$count" 'stop lines'
count=0
for cause in $(sed -n '/^## Causes/,$s/^| `\([A-Za-z0-9`, ]*\)` |.*/\1/p' docs/stops.md \
    | tr -d '`,'); do
    count=$((count + 1))
    named "$cause" geofeed.1
done
counted 15 "$count" 'causes of a damaged file'

if needs man man-db; then
    faults=$(LC_ALL=C.UTF-8 MANWIDTH=80 man --warnings -E UTF-8 -l geofeed.1 2>&1 > /dev/null)
    [ -z "$faults" ] || fail "$faults"
fi

verdict
