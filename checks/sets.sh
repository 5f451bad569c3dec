#!/usr/bin/env bash
# contrib/geofeed-set: sets of countries beside lookups and beside the census, with the holes of
# nested lines left open, of the example and of 300,000 lines; of 60,000 lines (with ALL=1 of all)
# loaded by the real nft and ipset, twice, each in a network of its own; and what it refuses.
set -u
cd "$(dirname "${BASH_SOURCE[0]}")/.." || exit 1
set=$PWD/contrib/geofeed-set
made=$PWD/bench/statistics.awk
world=$PWD/bench/world.awk
example=$PWD/examples/realistic
. checks/with_program.bash
command -v python3 > /dev/null || skip "there is no python3 (Debian's python3)"
export GEOFEED=$program PATH=$PATH:/usr/sbin:/sbin

# does WORDS..: it ends with status 0 and says nothing.
does() {
    "$set" "$@" > printed 2> told || fail "'$*' ends with status $?: $(cat told)"
    [ ! -s told ] || fail "'$*' says '$(cat told)'"
}

# The example: FR has 192.0.0.0/16 but for what other lines and the overrides have inside it.
cp "$example"/* . 2> told
does plain job FR
[ "$(cat printed)" = '192.0.0.0/23
192.0.3.0/24
192.0.4.0/22
192.0.12.0/22
192.0.16.0/20
192.0.32.0/19
192.0.64.0/18
192.0.128.0/17' ] || fail "FR of the example is '$(cat printed)'"
does plain job de At
[ "$(head -n 1 printed)" = 192.0.2.0/25 ] \
    && [ "$(sed -n 2p printed)" = 192.0.2.128/26 ] && [ "$(wc -l < printed)" -eq 2 ] \
    || fail "DE and AT of the example are '$(cat printed)'"
does plain job NL
[ "$(cat printed)" = 2001:db8::/33 ] || fail "NL of the example is '$(cat printed)'"
does nft --name home --table filter job DE NL
[ "$(cat printed)" = "add table inet filter
add set inet filter home4 { type ipv4_addr; flags interval; }
flush set inet filter home4
add element inet filter home4 { 192.0.2.0/29, 192.0.2.8/31, 192.0.2.20/30, 192.0.2.24/29, \
192.0.2.32/27, 192.0.2.64/26, 192.0.2.128/26 }
add set inet filter home6 { type ipv6_addr; flags interval; }
flush set inet filter home6
add element inet filter home6 { 2001:db8::/33 }" ] || fail "nft of the example is '$(cat printed)'"

# Addresses at random in sets of nested lines, beside the record of each.
awk -v lines=4000 -f "$made" > stats.txt
awk -v lines=4000 -f "$world"
sed -i '/^emit second/,$d' job
"$program" build job > printed 2> told \
    || fail "the job of all kinds ends with status $?: $(cat told)"
does plain job US
mv printed us
awk 'BEGIN { seed = 4713
    for (n = 0; n < 400; n++) {
        if (n % 4) printf "%d.%d.%d.%d\n", 1 + below(223), below(256), below(256), below(256)
        else printf "2%03x:%x:%x::%x\n", below(4096), below(65536), below(65536), below(65536)
    } }
    function below(most) { seed = (seed * 16807) % 2147483647; return seed % most }' > addresses
cat > member.py <<'X'
"""For each address on standard input whether it is in a set of prefixes: 1 or 0. The prefixes have
to be apart."""
import bisect, ipaddress, sys
spans = {4: [], 6: []}
for line in open(sys.argv[1]):
    block = ipaddress.ip_network(line.strip())
    spans[block.version].append((int(block.network_address), int(block.broadcast_address)))
for known in spans.values():
    assert all(left[1] < right[0] for left, right in zip(known, known[1:])), "prefixes that overlap"
for line in sys.stdin:
    address = ipaddress.ip_address(line.strip())
    known = spans[address.version]
    at = bisect.bisect(known, (int(address), 1 << 128)) - 1
    print(int(at >= 0 and int(address) <= known[at][1]))
X
cut -d / -f 1 us | awk 'NR % 40 == 1' >> addresses
grep -v '^2002:' addresses > some && mv some addresses
python3 member.py us < addresses > inside || fail "the set of US cannot be read"
emitted=$(sed -n 's/^emit //p' job | head -n 1)
while read -r at; do
    "$program" lookup "$emitted" "$at" | grep -c '"country":{"iso_code":"US"}'
done < addresses > wanted
cmp -s inside wanted \
    || fail "the set of US is not what lookups say:" \
        "$(paste addresses inside wanted | awk '$2 != $3' | head -n 3)"
[ "$(sort -u wanted | wc -l)" -eq 2 ] || fail "all addresses are in the set of US, or none is"

# 300,000 lines: the sums are the census's. Each IPv4 address comes once more in ::ffff:0:0/96 and
# 2^80 times in 2002::/16.
awk -v lines=300000 -f "$made" > s.txt
printf 'epoch 1700000000\nstats made s.txt\n' > job
does plain job DE JP
cat > sums.py <<'X'
"""The sums of a set on standard input beside lines of a census."""
import ipaddress, sys
sums = {4: 0, 6: 0}
for line in sys.stdin:
    block = ipaddress.ip_network(line.strip())
    sums[block.version] += block.num_addresses
words = sys.argv[1].split()
four, six = sum(map(int, words[1::3])), sum(map(int, words[2::3]))
assert sums == {4: four, 6: six - four * (2 ** 80 + 1)} and four and sums[6], (sums, words)
X
python3 sums.py "$("$program" census job | grep -E '^(DE|JP) ' | tr '\n' ' ')" < printed 2> told \
    || fail "the sums are not those of the census: $(cat told)"
[ -n "${ALL:-}" ] || awk -v lines=60000 -f "$made" > s.txt
does plain job DE JP
mv printed plain

cat > loaded.py <<'X'
"""The prefixes of nft's sets as plain lines."""
import json, sys
for one in json.load(sys.stdin)["nftables"]:
    for element in one.get("set", {}).get("elem", []):
        if isinstance(element, dict) and "prefix" in element:
            print(f"{element['prefix']['addr']}/{element['prefix']['len']}")
        elif isinstance(element, str):
            print(f"{element}/{128 if ':' in element else 32}")
        else:
            print(element)
X

# alone COMMAND..: in a network of its own.
alone() { unshare -n "$@" > printed 2> told; }

# All of a set is loaded, and all of another one in its place.
if ! alone true; then
    part "nft and ipset, since no network can be made here: $(cat told)"
else
    does nft job DE JP && mv printed set.nft
    does ipset job DE JP && mv printed set.ipset
    does nft job CH && mv printed less.nft
    does ipset job CH && mv printed less.ipset
    does plain job CH && mv printed less
    if needs nft nftables; then
        for one in set less; do
            alone sh -c "nft -f set.nft && nft -f set.nft && nft -f $one.nft \
                && nft -j list table inet geo" \
                || fail "nft does not load the set: $(head -c 300 told)"
            python3 loaded.py < printed | sort > loaded
            sort "$([ "$one" = set ] && echo plain || echo less)" | cmp -s - loaded \
                || fail "nft has loaded another set: $(head -n 3 loaded)"
        done
    fi
    if ! needs ipset ipset; then
        :
    elif ! alone ipset list; then
        part "ipset, which the kernel does not have here"
    else
        for one in set less; do
            alone sh -c "ipset restore < set.ipset && ipset restore < set.ipset \
                && ipset restore < $one.ipset && ipset save" \
                || fail "ipset does not load the set: $(cat told)"
            sed -n 's/^add geo[46] //p' printed \
                | sed '/\//!{/:/s/$/\/128/;/:/!s/$/\/32/}' | sort > loaded
            sort "$([ "$one" = set ] && echo plain || echo less)" | cmp -s - loaded \
                || fail "ipset has loaded another set: $(head -n 3 loaded)"
            grep -c '^create' printed | grep -qx 2 || fail "ipset keeps other sets too"
        done
        # Everything has one country: a set of ipset's has no prefix of length 0.
        printf '0.0.0.0-255.255.255.255,set,DE\n2000::/3,set,DE\n' > all.csv
        printf 'epoch 1\noverrides all.csv\n' > every
        does ipset every DE
        mv printed every.ipset
        alone sh -c 'ipset restore < every.ipset && ipset test geo4 203.0.113.1 \
            && ipset test geo6 2001:db8::1' \
            || fail "a set of all addresses is not loaded: $(cat told)"
    fi
fi

# What it refuses: nothing is printed, one line says why, and no folder is left behind.
# refuses STATUS SAYS WORDS..
refuses() {
    local wanted=$1 says=$2 status
    shift 2
    "$set" "$@" > printed 2> told
    status=$?
    [ "$status" -eq "$wanted" ] && [ ! -s printed ] && [[ "$(tail -n 1 told)" == $says ]] \
        || fail "'$*' ends with status $status and says '$(tail -n 1 told)'"
    [ -z "$(find . -maxdepth 1 -name '.geofeed*')" ] || fail "'$*' leaves a folder behind"
}
refuses 1 'geofeed-set: no address has the country XX: nothing is printed' plain job DE XX
refuses 1 'geofeed-set: no address has the country UK, whose code is GB: nothing is printed' \
    nft job UK
refuses 1 'geofeed-set: geofeed census ends with status 4: nothing is printed' plain nothing DE
refuses 2 "*'DEU' is no country: two letters, as DE" plain job DEU
refuses 2 "*'a;b' is no name of a set*" nft --name 'a;b' job DE
refuses 2 '*' nft job
refuses 2 '*' iptables job DE
GEOFEED=./nowhere refuses 1 'geofeed-set: ./nowhere: No such file or directory' plain job DE
printf 'epoch 1\noverrides low.csv\n' > low
echo '64:ff9b::/96,set,DE' > low.csv
"$set" plain low DE > printed 2> told && [ ! -s printed ] \
    && [ "$(cat told)" = 'geofeed-set: 4294967296 IPv6 addresses below 2000:: are left out' ] \
    || fail "addresses below 2000:: are told as '$(cat told)'"
# Killed in the middle: the program's stand-in waits.
printf '#!/bin/sh\n[ "$1" = census ] && exec "%s" "$@"\nsleep 60\n' "$program" > slow \
    && chmod +x slow
GEOFEED=$PWD/slow "$set" plain job DE > printed 2> told &
killed=$!
for _ in $(seq 200); do
    [ -n "$(find . -maxdepth 1 -name '.geofeed*')" ] && break
    sleep 0.1
done
kill "$killed" && wait "$killed"
[ -z "$(find . -maxdepth 1 -name '.geofeed*')" ] && [ ! -s printed ] \
    || fail "where it is killed it leaves a folder behind"

verdict
