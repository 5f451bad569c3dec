#!/usr/bin/env bash
# Want of memory, by `ulimit -v` at many limits: each command ends with status 1 and one line of
# words, what it has printed till then is the beginning of what it prints otherwise, the old file
# stands or the whole new one, and nothing is left behind. With more memory it does all. And
# allocations of the example of all kinds of sources are refused in turn, by checks/refused.cpp: one
# in four, from a seed that is printed (SEED), or with ALL=1 each.
set -u
cd "$(dirname "${BASH_SOURCE[0]}")/.." || exit 1
statistics=$PWD/bench/statistics.awk
world=$PWD/bench/world.awk
refused=$PWD/checks/refused.cpp
example=$PWD/examples/realistic
. checks/with_program.bash

awk -v lines=4000 -f "$statistics" > stats.txt
awk -v lines=4000 -f "$world"
sed -i 's/^emit out.mmdb$/report\n&/' job
sed '1a pieces 1' job > single
url=$(sed -n 's/^feed \([^ ]*\) feed8.csv$/\1/p' job)

# The least limit with which the program is loaded at all, in KiB.
least=1000
until { (ulimit -v "$least" && exec "$program" --version > printed 2>&1); } 2> told; do
    least=$((least + 250))
    [ "$least" -lt 100000 ] || { fail "no limit lets the program begin"; verdict; }
done

# is_old_or_new FILE: the file is what stood there, or all that the command writes. Where a command
# writes it twice, it may be all of the first time too: as many bytes, and read to its end.
is_old_or_new() {
    cmp -s "$1" "old/$1" || cmp -s "$1" "new/$1" \
        || { grep -q "^emit $1 .* bytes $(wc -c < "$1")\$" whole \
            && "$program" lookup "$1" 10.0.0.1 > looked; }
}

# tried FILE WORDS..: the command at limits from the least on up to where it does all. It writes
# FILE, or nothing where that is `-`.
tried() {
    local file=$1 limit=$least lacking=0 status name
    shift
    rm -rf old new .geofeed* && mkdir old new
    "$program" "$@" > whole 2> told || fail "'$*' ends with status $? where memory is ample"
    for name in "$file" second.mmdb; do
        [ ! -f "$name" ] || { mv "$name" new && echo "an older $name" > "old/$name"; }
    done
    while :; do
        cp old/* . 2> /dev/null
        (ulimit -v "$limit" && exec "$program" "$@") > printed 2> told
        status=$?
        for name in old/*; do
            [ ! -e "$name" ] || is_old_or_new "${name#old/}" \
                || fail "'$*' with $limit KiB: ${name#old/} is neither the old file nor the new one"
        done
        [ -z "$(find . -name '.geofeed new *')" ] || fail "'$*' with $limit KiB leaves a new file"
        [ "$status" -ne 0 ] || break
        lacking=$((lacking + 1))
        [ "$status" -eq 1 ] || fail "'$*' with $limit KiB ends with status $status: $(cat told)"
        [ "$(wc -l < told)" -eq 1 ] && grep -q '^geofeed: memory ran out; ' told \
            || fail "'$*' with $limit KiB says '$(cat told)'"
        head -c "$(wc -c < printed)" whole | cmp -s - printed \
            || fail "'$*' with $limit KiB prints '$(head -c 300 printed)'"
        limit=$((limit + limit / 10))
        [ "$limit" -lt 4000000 ] || { fail "'$*' does not end well with $limit KiB"; break; }
    done
    cmp -s whole printed && [ ! -s told ] || fail "'$*' with $limit KiB says '$(cat told)'"
    [ "$file" = - ] || cmp -s "$file" "new/$file" \
        || fail "'$*' with $limit KiB writes another $file"
    counted 3 "$lacking" "limits at which '$*' lacks memory"
}

tried out.mmdb build single
tried out.mmdb build job
tried - census job
tried - explain job 20.0.8.1
tried - check job "$url"
tried own.csv publish job 20.0.0.0/8 own.csv
tried made.mmdb gen 3000 made.mmdb
# A file of one node and one value, the empty map, and 9 MB that nothing leads to.
{
    printf '\0\0\x11\0\0\x11'
    head -c 16 /dev/zero
    printf '\xE0'
    head -c 9000000 /dev/zero
    printf '\xAB\xCD\xEFMaxMind.com\xE4\x5Bbinary_format_major_version\xA1\x02'
    printf '\x4Aip_version\xA1\x06\x4Anode_count\xC1\x01\x4Brecord_size\xA1\x18'
} > large
tried - lookup large 192.0.2.1

# Marks between which nothing changed share the list of touched grounds: before the first emit of
# 100,000 statements 10,000 of them take at most 50 MB. By one piece, since the addresses that each
# thread's own arena wants come and go with the limit.
awk -v lines=120000 -f "$statistics" > many.txt
printf 'epoch 1700000000\npieces 1\nstats made many.txt\nemit many.mmdb\n' > plain
awk '/^emit/ { for (n = 0; n < 10000; n++) print "mark m" n } { print }' plain > marked
limit=$least
until { (ulimit -v "$limit" && exec "$program" build plain > whole 2> told); } 2> told; do
    limit=$((limit + limit / 20))
    [ "$limit" -lt 4000000 ] || { fail "'build plain' does not end well with $limit KiB"; break; }
done
(ulimit -v $((limit + 45000)) && exec "$program" build marked) > printed 2> told \
    || fail "10,000 marks of 100,000 statements take more than 50 MB: $(cat told)"
cmp -s whole printed || fail "10,000 marks change what is printed: $(head -c 300 printed)"

seed=${SEED:-20261129} step=4
[ -z "${ALL:-}" ] || step=1

# in_turn FILE LEAST WORDS..: the command with its allocations refused in turn. It has LEAST of them
# or more; most of those that are refused it cannot do without, and one that a write wants is that
# write's fault. The command writes FILE, or nothing where that is `-`; `first` is what it may have
# written on the way.
in_turn() {
    local file=$1 least=$2 total tried=0 lacking=0 writing=0 number status told whole
    shift 2
    rm -f "$file"
    whole=$(COUNTED=count LD_PRELOAD=./refused.so "$program" "$@" 2> told) \
        || fail "'$*' ends with status $?"
    total=$(od -An -tu8 count | tr -d ' ')
    [ "$file" = - ] || mv "$file" new && echo older > old
    for ((number = 1 + seed % step; number <= total; number += step)); do
        tried=$((tried + 1))
        [ "$file" = - ] || cp old "$file"
        REFUSED=$number LD_PRELOAD=./refused.so "$program" "$@" > printed 2> told
        status=$?
        mapfile -t told < told
        case "$status ${#told[@]} ${told[*]}" in
            '0 0 ') [ "$(< printed)" = "$whole" ] || fail "'$*': $number prints '$(< printed)'" ;;
            '1 1 geofeed: memory ran out'*) lacking=$((lacking + 1)) ;;
            '5 1 '*' could not be written; '*': out of memory')
                writing=$((writing + 1))
                sed -i '$d' printed
                ;;
            *) fail "'$*': without allocation $number it ends with $status and says '${told[*]}'" ;;
        esac
        [[ "$whole" == "$(< printed)"* ]] || fail "'$*': $number prints '$(< printed)'"
        [ "$file" = - ] || cmp -s "$file" old || cmp -s "$file" new || cmp -s "$file" first \
            || fail "'$*': without allocation $number $file is neither the old file nor the new one"
    done
    [ -z "$(find . -name '.geofeed new *')" ] || fail "'$*' leaves a new file"
    [ "$file" = - ] || mv new "$file"
    counted "$least" "$total" "allocations of '$*'"
    counted $((tried / 2)) "$lacking" "allocations of $tried without which '$*' lacks memory"
    echo "$check: $1: of $total allocations $tried were refused; $lacking end the run," \
        "$writing the write, and it does all without $((tried - lacking - writing))"
}

if needs g++ g++; then
    rm -rf old new ./*.csv && cp "$example"/* . 2> told
    g++ -O1 -shared -fPIC -o refused.so "$refused" || fail "checks/refused.cpp is not compiled"
    echo "$check: allocations from the seed $seed"
    in_turn geo.mmdb 350 build job
    in_turn - 200 census job
    in_turn - 200 explain job 192.0.2.12
    in_turn - 180 check job https://geo.example.net/a.csv
    in_turn own.csv 220 publish job 192.0.2.0/24 own.csv
    in_turn - 50 lookup geo.mmdb 192.0.2.12
    printf '%s\n' 'inetnum: 10.0.0.0 - 10.255.255.255' \
        'geofeed: https://gen.example/feed.csv' > gen.db
    echo 'gen|US|ipv4|10.0.0.0|16777216|20200101|allocated' > gen.txt
    printf '10.0.0.%d/28,%s,,City %d,\n' 0 DE 0 16 FR 1 32 IT 2 > gen.csv
    printf '%s\n' 'epoch 1700000000' 'rpsl gen gen.db' 'stats gen gen.txt' \
        'feed https://gen.example/feed.csv gen.csv' 'emit first' > job
    "$program" build job > printed || fail "the first file of the generated job is not made"
    in_turn made.mmdb 300 gen 3 made.mmdb
fi

verdict
