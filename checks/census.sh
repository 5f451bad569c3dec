#!/usr/bin/env bash
# The census of the generated job of 1,000 lines, as files of a folder, beside counts made by hand:
# each line's 16 addresses, and the rest of 10.0.0.0/8. Of the other addresses each IPv4 address has
# one in ::ffff:0:0/96 and 2^80 in 2002::/16, so that its count there is the one of IPv4 times
# 1,208,925,819,614,629,174,706,177.
set -u
cd "$(dirname "${BASH_SOURCE[0]}")/.." || exit 1
. checks/with_program.bash
printf '%s\n' 'inetnum: 10.0.0.0 - 10.255.255.255' 'geofeed: https://gen.example/feed.csv' > gen.db
echo 'gen|US|ipv4|10.0.0.0|16777216|20200101|allocated' > gen.txt
printf '%s\n' 'epoch 1700000000' 'rpsl gen gen.db' 'stats gen gen.txt' \
    'feed https://gen.example/feed.csv first.csv' > job
awk 'BEGIN {
    split("DE FR IT", countries, " ")
    for (n = 0; n < 1000; n++)
        printf "10.0.%d.%d/28,%s,,City %d,\n", int(n / 16), n % 16 * 16, countries[n % 3 + 1], n
}' > first.csv
# 16 times 334, 333 and 333 addresses, and 2^24 less 16 times 1,000.
cat > wanted << 'END'
DE 5344 6460499580020578309629809888
FR 5328 6441156766906744242834511056
IT 5328 6441156766906744242834511056
US 16761216 20263066790537836357151969231232
countries 4
END
"$program" census job > printed 2> told || fail "the census ends otherwise: $(cat printed told)"
cmp -s wanted printed || fail "the census prints '$(cat printed)', and not '$(cat wanted)'"
verdict
