#!/usr/bin/env bash
# The example of all kinds of sources together, examples/realistic, by each command that looks at a
# job. What is wanted stands in its folder expected/, and comes from outside of the program.
set -u
cd "$(dirname "${BASH_SOURCE[0]}")/.." || exit 1
example=$PWD/examples/realistic
. checks/with_program.bash
cp "$example"/* . 2> told
wanted=$example/expected

# same WHAT WANTED: what was printed is what is wanted.
same() { cmp -s printed "$2" || fail "$1 prints '$(cat printed)'"; }

# does WORDS..: the command ends with status 0 and says nothing.
does() {
    local status
    "$program" "$@" > printed 2> told
    status=$?
    [ "$status" -eq 0 ] && [ ! -s told ] \
        || fail "'$*' ends with status $status: $(cat printed told)"
}

does build job
same 'the job' "$wanted/printed"
cmp -s geo.mmdb "$wanted/geo.mmdb" \
    || fail "the file is another one: $(cmp geo.mmdb "$wanted/geo.mmdb" 2>&1)"

count=0
while read -r address record; do
    count=$((count + 1))
    printed=$("$program" lookup geo.mmdb "$address" 2>&1)
    [ "$printed" = "$record" ] \
        || fail "$address has the record '$printed', and not '$record'"
done < "$wanted/lookups"
counted 5 "$count" lookups

does explain job 192.0.2.12
same explain "$wanted/explain"
does census job
same census "$wanted/census"
does publish job 192.0.2.0/24 own.csv
[ "$(cat printed)" = 'publish own.csv lines 5' ] || fail "publish prints '$(cat printed)'"
cmp -s own.csv "$wanted/published" || fail "publish writes '$(cat own.csv)'"
count=0
while read -r url; do
    count=$((count + 1))
    : > lines
    while read -r line; do
        echo "$line" >> lines
        [[ "$line" != lines* ]] || break
    done
    does check job "$url"
    same "check of $url" lines
done < "$wanted/checks"
counted 3 "$count" feeds

verdict
