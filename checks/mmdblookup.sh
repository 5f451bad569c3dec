#!/usr/bin/env bash
# Files that the program writes, opened by libmaxminddb's own `mmdblookup`: addresses inside and
# outside of each prefix, and addresses at random, for which the program's own `lookup` has to say
# the same.
set -u
cd "$(dirname "${BASH_SOURCE[0]}")/.." || exit 1
. checks/with_program.bash
command -v mmdblookup > /dev/null || skip "there is no mmdblookup (Debian's mmdb-bin)"

# emits LINE TEXT: a job of these statistics has to print this line.
emits() {
    printf '%s' "$2" > s.txt
    printf 'epoch 1700000000\nstats x s.txt\nemit out.mmdb\n' > job
    local printed
    printed=$("$program" build job) || fail "build ended with status $?: $printed"
    [ "$printed" = "$1" ] || fail "build printed '$printed', and not '$1'"
}

# The country that mmdblookup finds, or none.
country() {
    local found
    if found=$(mmdblookup --file out.mmdb --ip "$1" country iso_code 2>&1); then
        sed -n 's/^ *"\(.*\)" <utf8_string>.*/\1/p' <<< "$found"
    elif grep -q 'Could not find an entry' <<< "$found"; then
        echo none
    else
        echo "refused: $found"
    fi
}

# finds COUNTRY ADDRESS..
finds() {
    local wanted=$1 at found
    shift
    for at in "$@"; do
        found=$(country "$at")
        [ "$found" = "$wanted" ] \
            || fail "mmdblookup of $at gives '$found', and not $wanted, after '$(cat s.txt)'"
    done
}

emits 'emit out.mmdb nodes 1 data 0 bits 24 bytes 225' ''
finds none :: 0.0.0.0 255.255.255.255 2001:db8::1

emits 'emit out.mmdb nodes 124 data 22 bits 24 bytes 985' \
    'x|DE|ipv4|128.0.0.0|2147483648||allocated'
finds DE 128.0.0.0 128.0.0.1 255.255.255.255 ::ffff:128.0.0.1 2002:8000:1::1
finds none 127.255.255.255 0.0.0.0 ::1:0:0 2001:db8::1 ::ffff:127.255.255.255 2002:7fff:ffff::1

emits 'emit out.mmdb nodes 148 data 22 bits 24 bytes 1129' 'x|DE|ipv4|192.0.2.0|768||allocated'
finds DE 192.0.2.0 192.0.3.255 192.0.4.0 192.0.4.255
finds none 192.0.1.255 192.0.5.0

printf 'x|DE|ipv4|255.255.255.255|1||allocated' > s.txt
"$program" build job > printed || fail "build ended with status $?"
finds DE 255.255.255.255
finds none 255.255.255.254 ::1:0:0

emits 'emit out.mmdb nodes 148 data 22 bits 24 bytes 1129' 'x|DE|ipv4|10.0.0.0|128||allocated
x|DE|ipv4|10.0.1.0|128||allocated'
finds DE 10.0.0.0 10.0.0.127 10.0.1.0 10.0.1.127
finds none 9.255.255.255 10.0.0.128 10.0.0.255 10.0.1.128

emits 'emit out.mmdb nodes 147 data 22 bits 24 bytes 1123' 'x|DE|ipv4|192.0.2.0|128||allocated
x|DE|ipv4|192.0.2.128|128||allocated'
finds DE 192.0.2.0 192.0.2.127 192.0.2.128 192.0.2.255
finds none 192.0.1.255 192.0.3.0

# Delegations and addresses at random, the same in each run.
awk 'BEGIN {
    seed = 20240301
    for (n = 0; n < 400; n++) {
        country = substr("DEATFRCHUSJPBRZA", 1 + 2 * below(8), 2)
        if (below(4) > 0)
            printf "x|%s|ipv4|%d.%d.%d.0|%d||allocated\n", country,
                below(224), below(256), below(256), 1 + below(70000)
        else printf "x|%s|ipv6|2001:%x::|%d||allocated\n", country, below(256) * 256, 24 + below(9)
    }
}
function below(most) { seed = (seed * 16807) % 2147483647; return seed % most }' > s.txt
"$program" build job > printed || fail "build ended with status $?"
count=0
while IFS= read -r at; do
    count=$((count + 1))
    own=$("$program" lookup out.mmdb "$at") || fail "lookup of $at ended with status $?: $own"
    other=$(country "$at")
    [ "$other" = none ] || other="{\"country\":{\"iso_code\":\"$other\"}}"
    [ "$own" = "$other" ] || fail "lookup of $at prints $own, and mmdblookup finds $other"
done < <(awk 'BEGIN {
    seed = 4711
    for (n = 0; n < 150; n++) {
        if (below(3) > 0) printf "%d.%d.%d.%d\n", below(224), below(256), below(256), below(256)
        else printf "2001:%x:%x::%x\n", below(65536), below(65536), below(65536)
    }
}
function below(most) { seed = (seed * 16807) % 2147483647; return seed % most }')
counted 150 "$count" addresses

verdict
