#!/usr/bin/env bash
# Who does the work: what runs side by side begins one thread fewer than there are pieces, since one
# piece stays where it is. So it is for long statistics and for each long feed, which are read by
# parts, for several feeds, and for the tree of an emit, of a census and of a published feed. No
# result tells, so the threads that are begun are counted (checks/counted.cpp).
set -u
cd "$(dirname "${BASH_SOURCE[0]}")/.." || exit 1
counted=$PWD/checks/counted.cpp
. checks/with_program.bash
needs g++ g++ || skip "the threads that a run begins cannot be counted"
g++ -O1 -shared -fPIC -o counted.so "$counted" \
    || { fail "checks/counted.cpp is not compiled"; verdict; }

# threads WORDS..: in `found` how many threads the command begins.
threads() {
    COUNTED=count LD_PRELOAD=./counted.so "$program" "$@" > printed 2> told \
        || fail "'$*' ends otherwise: $(cat printed told)"
    found=$(od -An -tu8 -j16 -N8 count | tr -d ' ')
}

# begins COUNT WHAT WORDS..: with four pieces the command begins so many, and with one piece none.
begins() {
    local wanted=$1 what=$2 pieces
    shift 2
    for pieces in 4 1; do
        sed -i "s/^pieces .*/pieces $pieces/" job
        threads "$@"
        [ "$found" -eq "$wanted" ] \
            || fail "$what in $pieces pieces begins $found threads, and not $wanted"
        wanted=0
    done
}

# job LINES..: a job of pieces with these lines.
job() { printf '%s\n' 'epoch 1700000000' 'pieces 4' "$@" > job; }

url=https://made.example/
awk 'BEGIN {
    for (n = 0; n < 60000; n++) {
        at = "10." int(n / 256) "." n % 256 ".0"
        printf "x|DE|ipv4|%s|256||allocated\n", at > "stats.txt"
        printf "%s/24,%s,,City %d,\n", at, n % 2 ? "DE" : "FR", n % 100 > "feed.csv"
    } }'
head -n 100 feed.csv > short.csv
head -n 100 stats.txt > short.txt
for file in stats.txt feed.csv; do
    [ "$(wc -c < $file)" -gt 1048576 ] || fail "$file is too short for four parts"
done

job 'stats made stats.txt' && begins 3 'long statistics' build job
job "feed ${url}a feed.csv" && begins 3 'a long feed' build job
job "feed ${url}"{a,b,c,d}' short.csv' && begins 3 'four feeds' build job
# Of a group the feeds before a long one are read in pieces, then it, then those behind it. What is
# written is the file of one piece.
lines=('rpsl made dump.db')
for at in 1 2 0 3 4; do
    printf 'inetnum: 1%s.0.0.0 - 1%s.255.255.255\ngeofeed: %s\n\n' $at $at $url$at >> dump.db
    sed "s/^10/1$at/" short.csv > $at.csv
    lines+=("feed $url$at $at.csv")
done
cp feed.csv 0.csv
job "${lines[@]}" && begins 9 'a long feed between others' build job
echo 'emit out.mmdb' >> job
threads build job
mv out.mmdb one.mmdb
sed -i 's/^pieces .*/pieces 4/' job
threads build job
cmp -s out.mmdb one.mmdb || fail 'a long feed between others gives another file in four pieces'
job 'stats made short.txt' && begins 0 'short statistics' build job
begins 3 'a census' census job
begins 3 'a published feed' publish job 10.0.0.0/8 own.csv
echo 'emit out.mmdb' >> job && begins 3 'an emit' build job
# As many as there are pieces without a line: four.
sed -i '/^pieces /d' job
threads build job
[ "$found" -eq 3 ] || fail "an emit without a line for pieces begins $found threads"
verdict
