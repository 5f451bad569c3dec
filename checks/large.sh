#!/usr/bin/env bash
# More than a million of each thing that a run counts: delegations, nodes under scattered addresses,
# cities, references, notes, verdicts, published lines; and a dump of more than a GiB, of which a
# piece alone is held. Each clause lets a run say that memory ran out, so none of them sees a limit
# below the format's own that answers so; here it fails. The two files are also those of another
# program, by the sums of their bytes.
set -u
cd "$(dirname "${BASH_SOURCE[0]}")/.." || exit 1
# shellcheck disable=SC2034
in_memory=400000
. checks/with_program.bash
available=$(sed -n 's/^MemAvailable: *\([0-9]*\) kB$/\1/p' /proc/meminfo)
[ "${available:-0}" -ge 2500000 ] \
    || skip "${available:-no} KB of memory are available, fewer than 2500000"
count=1050000
url=https://made.example/feed.csv

# ends KILOBYTES LAST WORDS..: the command ends well within so much memory, and prints this line
# last.
ends() {
    local kilobytes=$1 wanted=$2 status last
    shift 2
    (ulimit -v "$kilobytes" -t 60 && exec timeout 1200 "$program" "$@") > printed 2> told
    status=$?
    last=$(tail -n 1 printed)
    [ "$status $last" = "0 $wanted" ] \
        || fail "'$*' ends with status $status and '$last', and not with '$wanted': $(cat told)"
}

# sum_is SUM: the bytes of out.mmdb have it.
sum_is() {
    local sum
    sum=$(md5sum < out.mmdb 2>&1)
    [ "$sum" = "$1  -" ] || fail "the file has another sum, $sum"
}

# Delegations of one address each, of which 300,000 are scattered over IPv4.
awk -v count="$count" 'BEGIN {
    seed = 7
    for (n = 0; n < count; n++) {
        seed = (seed * 16807) % 2147483647
        at = n < 300000 ? seed * 2 % 3758096384 : 3758096384 + n
        printf "x|%c%c|ipv4|%d.%d.%d.%d|1||allocated\n", 65 + n % 25, 65 + n % 23,
            at / 16777216, at / 65536 % 256, at / 256 % 256, at % 256
    } }' > stats.txt
printf '%s\n' 'epoch 1700000000' 'stats made stats.txt' 'emit out.mmdb' > job
ends 1500000 'emit out.mmdb nodes 1538269 data 5188 bits 24 bytes 9235023' build job
sum_is eabcff889b383952bc61daaee798a6d3
ends 200000 '{"country":{"iso_code":"YD"}}' lookup out.mmdb 224.16.5.143
ends 1500000 'countries 575' census job
rm -f stats.txt out.mmdb

# References of one address each, which are noted since their feed is not set.
awk -v count="$count" -v url="$url" 'BEGIN {
    for (n = 0; n < count; n++) {
        at = "20." int(n / 65536) "." int(n / 256) % 256 "." n % 256
        printf "inetnum: %s - %s\ngeofeed: %s\n\n", at, at, url
    } }' > dump.db
printf '%s\n' 'epoch 1700000000' 'rpsl made dump.db' report > job
ends 1500000 "notes $count" build job
rm -f dump.db

# Lines of one address each, with a city of its own.
awk -v count="$count" 'BEGIN {
    for (n = 0; n < count; n++)
        printf "20.%d.%d.%d,DE,,c%d,\n", n / 65536, n / 256 % 256, n % 256, n
    }' > feed.csv
printf 'inetnum: 20.0.0.0 - 20.255.255.255\ngeofeed: %s\n' "$url" > dump.db
printf '%s\n' 'epoch 1700000000' 'rpsl made dump.db' "feed $url feed.csv" 'emit out.mmdb' > job
ends 2500000 'emit out.mmdb nodes 1050146 data 21988915 bits 28 bytes 29340158' build job
sum_is 5b2b6de983674b77e08ea6b9987e922b
ends 200000 '{"city":{"names":{"en":"c1049999"}},"country":{"iso_code":"DE"}}' \
    lookup out.mmdb 20.16.5.143
ends 1500000 "lines $count" check job "$url"
ends 2500000 "publish own.csv lines $count" publish job 20.0.0.0/8 own.csv
rm -f feed.csv own.csv out.mmdb

# A dump of more than a GiB: a line that is as long stands between its two objects.
printf 'inetnum: 20.0.0.0 - 20.0.0.255\ngeofeed: %s\n\n%% ' "$url" > dump.db
truncate -s 1200000000 dump.db || exit 1
printf '\n\ninetnum: 20.0.2.0 - 20.0.2.255\ngeofeed: %s\n' "$url" >> dump.db
printf '%s\n' 'epoch 1700000000' 'rpsl made dump.db' report > job
ends 100000 'notes 2' build job
verdict
