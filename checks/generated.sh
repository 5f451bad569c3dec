#!/usr/bin/env bash
# The generated job of 1,000 lines: by its own command, as files of a folder in several numbers of
# pieces, with its second feed alone, and published; and that of 100,000 lines. (That of one line is
# in checks/trials/generations.txt.)
set -u
cd "$(dirname "${BASH_SOURCE[0]}")/.." || exit 1
. checks/with_program.bash

# does PRINTED WORDS..: the command ends with status 0, prints these lines and says nothing.
does() {
    local status
    "$program" "${@:2}" > printed 2> told
    status=$?
    [ "$status" -eq 0 ] && [ ! -s told ] && [ "$(cat printed)" = "$1" ] \
        || fail "'${*:2}' ends with status $status and prints '$(cat printed told)', and not '$1'"
}

# feed FIRST [COUNT]: so many lines of the feed, or 1,000, of which the first has this country.
feed() {
    awk -v first="$1" -v count="${2:-1000}" 'BEGIN { split("DE FR IT", countries, " ")
        for (at = 0; at < count; at++)
            printf "10.%d.%d.%d/28,%s,,City %d,\n", int(at / 4096), int(at / 16) % 256,
                at % 16 * 16, at ? countries[at % 3 + 1] : first, at % 1000 }'
}

# job FEED FILE [LINE]: a job that sets the dump and this feed, with a line between them, and emits
# this file.
job() {
    printf '%s\n' 'epoch 1700000000' 'rpsl gen gen.db' "${@:3}" \
        "feed https://gen.example/feed.csv $1" "emit $2"
}

printf 'inetnum: 10.0.0.0 - 10.255.255.255\ngeofeed: https://gen.example/feed.csv\n' > gen.db
echo 'gen|US|ipv4|10.0.0.0|16777216|20200101|allocated' > gen.txt
feed DE > first.csv
feed CH > second.csv

first='nodes 1142 data 21932 bits 24 bytes 29004'
second='nodes 1142 data 21936 bits 24 bytes 29008'
for pieces in 1 3 64; do
    {
        printf '%s\n' 'epoch 1700000000' "pieces $pieces" 'rpsl gen gen.db' 'stats gen gen.txt'
        printf '%s\n' 'feed https://gen.example/feed.csv first.csv' "emit a$pieces"
        printf '%s\n' 'feed https://gen.example/feed.csv second.csv' "emit b$pieces"
    } > "job$pieces"
    does "emit a$pieces $first"$'\n'"emit b$pieces $second" build "job$pieces"
done
does "emit c $first"$'\n'"emit c $second" gen 1000 c
job second.csv d 'stats gen gen.txt' > alone
does "emit d $second" build alone
for pair in 'a1 a3' 'a1 a64' 'b1 b3' 'b1 b64' 'c b1' 'c d'; do
    # shellcheck disable=SC2086
    cmp -s $pair || fail "of $pair the one is not the other"
done

# A hundred thousand lines, beside a job with the second feed alone.
feed CH 100000 > many.csv
job many.csv j 'stats gen gen.txt' > fresh
first='nodes 5032 data 41738 bits 24 bytes 72150'
second='nodes 5040 data 41751 bits 24 bytes 72211'
does "emit i $first"$'\n'"emit i $second" gen 100000 i
does "emit j $second" build fresh
cmp -s i j || fail "the file of 100,000 generated lines is not that of the second feed alone"

# A thousand places take a thousand lines, and the feed that is published says the same.
without='nodes 1142 data 21923 bits 24 bytes 28995'
job first.csv e > before
job f g > after
does "emit e $without" build before
does 'publish f lines 1000' publish before 10.0.0.0/8 f
does 'publish h lines 1001' publish job1 10.0.0.0/8 h
does "emit g $without" build after
cmp -s e g || fail "the file of the feed that is published is another one"

verdict
