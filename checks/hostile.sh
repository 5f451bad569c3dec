#!/usr/bin/env bash
# Feeds made to crowd the tables in which equal texts, places, ranges and values are found, beside
# honest ones of as many lines and texts of the same lengths: they take no more than three times as
# much time of the processor, which leaves room for a busy machine, nor half as much memory again.
# With g++ they have 100,000 lines, or as many as LINES says, which checks/hostile/hostile.cpp
# makes; without it 10,000, of which the searched words stand in checks/hostile/words.gz, and no
# addresses of one slot.
set -u
cd "$(dirname "${BASH_SOURCE[0]}")/.." || exit 1
maker=$PWD/checks/hostile
. checks/with_program.bash
families=(ranges places texts packed cache quoted)
if [ -x /usr/bin/time ]; then :; else
    lacks /usr/bin/time time
    verdict
fi
lines=${LINES:-100000}
if needs g++ g++; then
    g++ -O2 -o made "$maker/hostile.cpp" || fail "the generator is not compiled"
    families+=(slots)
else
    lines=10000
    gzip -dc "$maker/words.gz" > words || fail "checks/hostile/words.gz is not read"
fi

# feed FAMILY [honest]: the lines of such a feed.
feed() {
    if [ -x made ]; then
        ./made "$1" "$lines" ${2:+honest}
        return
    fi
    awk -v family="$1" -v lines="$lines" -v honest="${2:-}" '
        BEGIN { letters = "abcdefghijklmnopqrstuvwxyz" }
        $1 == (family == "quoted" ? "cache" : family) { word[count++] = $2 }
        function made(length_, text) {
            text = ""
            while (length(text) < length_) text = text substr(letters, 1 + int(rand() * 26), 1)
            return text
        }
        END {
            front = honest ? "2001:db8:7f4a:7c15" : "9e37:79b9:7f4a:7c15"
            size = family == "places" ? 32 : family == "packed" ? 30 : 16
            if (honest) count = family == "cache" || family == "quoted" ? 6 : lines
            quote = family == "quoted" ? "\"" : ""
            for (n = 0; n < count && honest; n++) word[n] = made(size)
            for (n = 0; n < lines; n++) {
                high = int(n / 65536)
                if (family == "ranges") {
                    at = lines - n
                    printf "%s:1:%x:%x:1/128,DE,,Berlin,\n", front, int(at / 65536), at % 65536
                    continue
                }
                city = word[n % count]
                city = city made(size - length(city))
                city = quote city quote
                printf "11.%d.%d.%d/32,DE,,%s,\n", high, int(n / 256) % 256, n % 256, city
            }
        }' words
}

# build FEED: the hundredths of a second and the kilobytes that a job over it takes.
build() {
    printf '%s\n' 'inetnum: 0.0.0.0 - 255.255.255.255' 'geofeed: https://h.example/f.csv' '' \
        'inet6num: 2000::/3' 'geofeed: https://h.example/f.csv' '' \
        'inet6num: 9e00::/8' 'geofeed: https://h.example/f.csv' > dump
    printf '%s\n' 'epoch 1700000000' 'rpsl r dump' "feed https://h.example/f.csv $1" \
        'emit out.mmdb' > job
    /usr/bin/time -f '%U %S %M' -o spent "$program" build job > printed || return 1
    awk '{ printf "%d %d\n", ($1 + $2) * 100, $3 }' spent
}

# within: both bounds hold.
within() {
    [ "$cpu" -le $((3 * honest_cpu + 10)) ] && [ $((100 * memory)) -le $((150 * honest_memory)) ]
}

for family in "${families[@]}"; do
    feed "$family" > hostile.csv
    feed "$family" honest > honest.csv
    counted "$lines" "$(wc -l < hostile.csv)" "lines of $family"
    counted "$lines" "$(wc -l < honest.csv)" "honest lines of $family"
    # Once more where the bounds do not hold, since others use the machine.
    for _ in 1 2 3; do
        read -r cpu memory < <(build hostile.csv) || fail "$family: the job stops"
        read -r honest_cpu honest_memory < <(build honest.csv) \
            || fail "$family: the honest job stops"
        within && break
    done
    echo "$check: $family: ${cpu}0 ms, $memory kB; honest ${honest_cpu}0 ms, $honest_memory kB"
    within || fail "$family takes too much beside an honest feed: time or memory"
done
verdict
