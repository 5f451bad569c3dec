#!/usr/bin/env bash
# contrib/mmdb-list: its list beside the census, beside lookups and beside mmdblookup; what differs
# beside what two lists say address by address; many addresses; a file of IPv4 alone; files of
# 300,000 lines; and files that are made to make it run long, take much memory or print what is not
# so, each within limits of both. One network in twenty of a large file is asked for, from a seed
# that is printed (SEED), and lists of 30,000 lines are compared: with ALL=1 each, and 300,000.
set -u
cd "$(dirname "${BASH_SOURCE[0]}")/.." || exit 1
made=$PWD/bench/statistics.awk
list=$PWD/contrib/mmdb-list
. checks/with_program.bash
/usr/bin/python3 -c 'import maxminddb.decoder' 2> /dev/null \
    || skip "there is no maxminddb for Python (Debian's python3-maxminddb)"

# runs SECONDS KILOBYTES COMMAND..: so much processor time and memory. Prints to `printed` and
# `told`; the status is in `status`.
runs() {
    local seconds=$1 kilobytes=$2
    shift 2
    (ulimit -v "$kilobytes" && ulimit -t "$seconds" && exec "$@") > printed 2> told
    status=$?
}

# does COMMAND..: it ends with status 0 and says nothing.
does() {
    runs 120 500000 "$@"
    [ "$status" -eq 0 ] && [ ! -s told ] \
        || fail "'${*:2}' ends with status $status: $(head -c 300 told)"
}

# The example: its list by the printed lookups, and the blocks that repeat the IPv4 addresses.
cp -r "$OLDPWD/examples/realistic" . && cd realistic || exit 1
does "$list" expected/geo.mmdb
cp printed all
grep -qxF '192.0.2.12/30 {"city":{"names":{"en":"Wien"}},"country":{"iso_code":"AT"}}' all \
    || fail "the example's list is '$(cat all)'"
grep -q -e '^::ffff:' -e '^2002:' all && fail "the blocks that repeat the IPv4 addresses are listed"
does "$list" --all expected/geo.mmdb
[ "$(grep -c '^::ffff:' printed)" -eq "$(grep -c '^[0-9.]*/' all)" ] \
    && [ "$(grep -c '^2002:' printed)" -eq "$(grep -c '^[0-9.]*/' all)" ] \
    || fail "--all has not each IPv4 network in both blocks"
does "$list" --in 192.0.2.128/25 expected/geo.mmdb
berlin=$(printf %s '192.0.2.128/26 {"city":{"names":{"en":"Berlin"}},' \
    '"country":{"iso_code":"DE"},"postal":{"code":"10115"},"subdivisions":[{"iso_code":"BE"}]}')
[ "$(cat printed)" = "$berlin" ] \
    || fail "--in prints '$(cat printed)'"
cut -d ' ' -f 1 expected/lookups > asked
does "$list" --ask expected/geo.mmdb < asked
[ -s printed ] && cut -d ' ' -f 1,3- printed | cmp -s - expected/lookups \
    || fail "--ask prints '$(cat printed)'"
does "$list" --info expected/geo.mmdb
grep -qx 'built 2023-11-14 22:13:20 UTC' printed && grep -qx 'type "Geofeed-City"' printed \
    || fail "--info prints '$(cat printed)'"
printf 'nonsense\n\n192.0.2.0/24\n 192.0.2.200 \nfe80::1%%eth0\n\033[2J\n' \
    | "$list" --ask expected/geo.mmdb > printed 2> told
[ "$(cat printed)" = '"nonsense" - no address
"192.0.2.0/24" - no address
192.0.2.200 192.0.2.192/26 none
"fe80::1%eth0" - no address of the file
"\u001b[2J" - no address' ] || fail "--ask of no addresses prints '$(cat printed)'"
printf '\377\n' | LC_ALL=en_US.ISO-8859-1 PYTHONIOENCODING=latin1 \
    "$list" --ask expected/geo.mmdb > printed 2> told
[ "$(cat printed)" = $'"\xef\xbf\xbd" - no address' ] \
    || fail "bytes that are no text are asked as '$(cat printed told)'"
cd ..

# 300,000 lines.
awk -v lines=300000 -f "$made" > s.txt
printf '%s\n' 'epoch 1700000000' 'stats made s.txt' 'emit out.mmdb' 'overrides one.csv' \
    'emit one.mmdb' > both
grep -v one both > job
echo '203.0.113.7,set,DE,DE-BE,Berlin' > one.csv
"$program" build both > built || fail "the job ends with status $?: $(cat built)"
does "$list" out.mmdb
mv printed old
"$program" census job | sed -n 's/^\([A-Z][A-Z]\) \([0-9]*\) .*/\1 \2/p' > wanted
sed -nE 's/^[0-9.]*\/([0-9]*) \{"country":\{"iso_code":"(..)"\}\}$/\2 \1/p' old \
    | awk '{ sum[$1] += 2 ^ (32 - $2) } END { for (one in sum) printf "%s %d\n", one, sum[one] }' \
    | sort | cmp -s - wanted \
    || fail "the sums of the list are not those of the census"
seed=${SEED:-20261129}
echo "$check: networks from the seed $seed"
awk -v seed="$seed" -v all="${ALL:+1}" 'BEGIN { srand(seed) } all || rand() < 0.05' old > some
counted 10000 "$(wc -l < some)" networks
does "$list" --ask out.mmdb < <(cut -d / -f 1 some)
cut -d ' ' -f 2- printed | cmp -s - some || fail "--ask finds other networks than the list has"
has_mmdblookup=
! needs mmdblookup mmdb-bin || has_mmdblookup=yes
for at in $(awk -F / 'NR % 450 == 7 { print $1 }' some | head -n 30); do
    record=$("$program" lookup out.mmdb "$at")
    network=$(grep -E "^${at//./\\.}/" some)
    [ "${network#* }" = "$record" ] \
        || fail "the list has '$network', where the record of $at is '$record'"
    [ -n "$has_mmdblookup" ] || continue
    length=$(mmdblookup --verbose --file out.mmdb --ip "$at" \
        | sed -n 's/^ *Record prefix length: //p')
    [[ "$at" == *:* ]] || length=$((length - 96))
    [ "${network%% *}" = "$at/$length" ] \
        || fail "mmdblookup says that the network of $at has length $length"
done
does "$list" out.mmdb one.mmdb
berlin=$(printf %s '+ 203.0.113.7/32 {"city":{"names":{"en":"Berlin"}},' \
    '"country":{"iso_code":"DE"},"subdivisions":[{"iso_code":"BE"}]}')
[ "$(cat printed)" = "$berlin" ] \
    || [ "$(grep -c '' printed)" -eq 2 ] && grep -qF '+ 203.0.113.7/32 {"city"' printed \
    || fail "one address more differs as '$(cat printed)'"

# What differs after some lines changed.
lines=30000
[ -z "${ALL:-}" ] || lines=300000
awk -v lines="$lines" -f "$made" > s.txt
third=$((lines / 3)) tenth=$((lines / 10))
sed -e "$((lines / 60)),+400s/|[A-Z][A-Z]|/|JP|/; $third,+100s/|[A-Z][A-Z]|ipv4/|ZZ|ipv4/" \
    -e "$((9 * tenth)),+100s/|[A-Z][A-Z]|ipv6/|CH|ipv6/" s.txt > changed.txt
printf '%s\n' 'epoch 1700000000' 'stats made s.txt' 'emit before.mmdb' 'stats made changed.txt' \
    'emit changed.mmdb' > job
"$program" build job > built || fail "the job of changes ends with status $?: $(cat built)"
does "$list" before.mmdb && mv printed old
does "$list" changed.mmdb && mv printed new
does "$list" before.mmdb changed.mmdb && mv printed differ
cat > compare.py <<'X'
"""Of two lists and what is said to differ: for each pair of records how many addresses changed from
one to the other."""
import collections, ipaddress, sys

def ranges(lines):
    for line in lines:
        network, record = line.rstrip("\n").split(" ", 1)
        network = ipaddress.ip_network(network)
        base = 0 if network.version == 4 else 1 << 32
        first = int(network.network_address) + base
        yield first, first + network.num_addresses, record

# At each cut the records of both lists change, or one of them does.
cuts = collections.defaultdict(list)
for side, name in enumerate(sys.argv[1:3]):
    for first, end, record in ranges(open(name)):
        cuts[first].append((1, side, record))
        cuts[end].append((0, side, None))
wanted, now, at = collections.Counter(), [None, None], 0
for cut in sorted(cuts):
    if now[0] != now[1]:
        wanted[tuple(now)] += cut - at
    for _, side, record in sorted(cuts[cut], key=lambda one: one[:2]):
        now[side] = record
    at = cut
said, pending = collections.Counter(), {}
for line in open(sys.argv[3]):
    sign, rest = line[0], line[2:]
    ((first, end, record),) = ranges([rest])
    pending.setdefault((first, end), [None, None])["-+".index(sign)] = record
for (first, end), pair in pending.items():
    said[tuple(pair)] += end - first
assert said == wanted and len(wanted) > 50, (len(said), len(wanted))
X
/usr/bin/python3 compare.py old new differ > printed 2>&1 \
    || fail "what differs is not what two lists say: $(tail -n 1 printed)"
does "$list" before.mmdb before.mmdb
[ ! -s printed ] || fail "a file differs from itself"

# Made files: most of them are hostile. Each is written with the words that are said of it.
cat > hostile.py <<'X'
import struct

def text(word): return bytes([0x40 | len(word.encode())]) + word.encode()
def number(value): raw = value.to_bytes(8, "big").lstrip(b"\0"); return bytes([len(raw), 2]) + raw
def pointer(at): return bytes([0x38]) + struct.pack(">I", at)
def array(count):
    return bytes([count, 4]) if count < 29 else b"\x1e\x04" + struct.pack(">H", count - 285)
def long_text(length): return b"\x5f" + (length - 65821).to_bytes(3, "big") + b"x" * length

def file(name, nodes, data=b"", version=6, more=b"", size=24, entries=4, count=None):
    """Nodes are pairs of numbers of so many bits (any other size is written as 24)."""
    if size == 28:
        tree = b"".join((low & 0xffffff).to_bytes(3, "big")
                        + bytes([low >> 24 << 4 | high >> 24])
                        + (high & 0xffffff).to_bytes(3, "big") for low, high in nodes)
    else:
        each = 4 if size == 32 else 3
        tree = b"".join(low.to_bytes(each, "big") + high.to_bytes(each, "big")
                        for low, high in nodes)
    about = [("binary_format_major_version", b"\xa1\x02"), ("ip_version", bytes([0xa1, version])),
             ("node_count", number(len(nodes) if count is None else count)),
             ("record_size", bytes([0xa1, size]))]
    about = b"".join(text(key) + value for key, value in about[:entries])
    with open(name, "wb") as out:
        out.write(tree + bytes(16) + data + b"\xab\xcd\xefMaxMind.com"
                  + bytes([0xe0 | (entries + bool(more))]) + about + more)

def record(nodes, at): return nodes + 16 + at

A = text("A") + text("B")
# Two ways from each node to the next: as many ways as addresses.
file("ladder", [(i + 1, i + 1) for i in range(127)] + [(record(128, 0), record(128, 2))], A)
file("other", [(i + 1, i + 1) for i in range(127)] + [(record(128, 2), record(128, 0))], A)
file("one_network", [(i + 1, i + 1) for i in range(127)] + [(record(128, 0), record(128, 0))], A)
file("circle", [(1, 2), (2, 2), (1, 1)])
file("self", [(0, 0)])
file("deep", [(i + 1, 129) for i in range(128)] + [(129, 129)])
file("deep4", [(i + 1, 33) for i in range(32)] + [(33, 33)], version=4)
# Nodes without end from which no leaf is reached in time.
file("long", [(i + 1, i + 1) for i in range(300000)] + [(300001, 300001)])
file("ipv4", [(record(2, 0), 1), (2, record(2, 2))], A, version=4)
# One tree in each size of a record, with 20,000,000 unused bytes before its second record; and a
# value of each type.
far = text("A") + bytes(20000000) + text("B")
for size in 24, 28, 32:
    wide = size != 24
    last = record(4, len(far) - 2 if wide else 0)
    file(f"bits{size}", [(1, 2), (3, record(4, 0)), (record(4, 0), 3), (4, last)],
         far if wide else A, size=size)
types = [b"\x68\x40\x09\x21\xfb\x54\x44\x2d\x18", b"\x04\x08\x40\x49\x0f\xdb", b"\x82\xbe\xef",
         b"\xa2\x01\x00", b"\xc1\x07", b"\x04\x01\xff\xff\xff\xfe",
         b"\x01\x02\x09", b"\x09\x03\x01" + bytes(8), b"\x01\x07", b"\x00\x07", text("x\"\u00e9")]
file("types", [(1, record(1, 0))], bytes([len(types), 4]) + b"".join(types))
file("nan", [(1, record(1, 0))], b"\x68\x7f\xf8" + bytes(6))
# Lists of pointers to the list before: 2^24 values of a record of 150 bytes.
bomb, at = b"", [0]
bomb += text("x")
for i in range(24):
    at.append(len(bomb)); bomb += array(2) + pointer(at[-2]) * 2
file("bomb", [(1, record(1, at[-1]))], bomb)
file("loop", [(1, record(1, 0))], array(1) + pointer(0))
file("nested", [(1, record(1, 0))], array(1) * 5000 + text("x"))
file("claims", [(1, record(1, 0))], b"\x1f\x04\xff\xff\xff")
file("cut", [(1, record(1, 0))], b"\x5fx\xff\xff")
file("outside", [(1, record(1, 9000))], A)
file("separator", [(1, 9)], A)
file("keys", [(1, record(1, 0))], b"\xe1" + array(1) + text("k") + text("v"))
file("latin", [(1, record(1, 0))], b"\x41\xfc")
file("terminal", [(1, record(1, 0))], text("\x1b[2J\x9b2J\u202e"))
# Each leaf leads to another list of pointers to one long text, or of very many values.
leaves = 30000
long = long_text(900000)
lists = b"".join(array(1) + pointer(0) for _ in range(leaves))
def comb(count, starts):
    """A tree with so many leaves: 15 levels."""
    nodes = []
    while len(starts) > 1:
        starts = [(starts[i], starts[i + 1]) for i in range(0, len(starts) - 1, 2)]
    order = [starts[0]]
    for one in order:
        order += [half for half in one if isinstance(half, tuple)]
    place = {id(one): i for i, one in enumerate(order)}
    return [tuple(place[id(half)] if isinstance(half, tuple) else half + len(order) + 16
                  for half in one) for one in order]
file("texts", comb(leaves, [len(long) + 7 * i for i in range(leaves)]), long + lists)
wide = array(50000) + text("x") * 50000
file("values", comb(leaves, [len(wide) + 7 * i for i in range(leaves)]), wide + lists)
file("metadata_bomb", [(1, 1)], more=text("a") + array(2) + (array(2) + pointer(0)) * 2)
file("few_metadata", [(1, 1)], entries=3)
file("sizes", [(1, 1)], size=25)
file("short", [(1, 1)], count=10 ** 9)
file("many", [(1, 1)], count=2 ** 63)
file("cut_text", [(1, record(1, 0))], b"\x5cx")
open("cut_off", "wb").write(open("ladder", "rb").read()[:-90])
open("empty", "wb")
X
/usr/bin/python3 hostile.py || fail "no made files"

# says FILE STATUS PRINTED TOLD: what is printed and told fits these patterns.
says() {
    runs 60 400000 "$list" "$1"
    [ "$status" -eq "$2" ] && [[ "$(head -c 2000 printed)" == $3 ]] && [[ "$(cat told)" == $4 ]] \
        || fail "of the file $1 it says, with status $status," \
            "'$(head -c 300 printed)' and '$(tail -n 2 told)'"
}
damaged='mmdb-list: *: damaged records: 1'
says ladder 1 '' 'mmdb-list: ladder: the list has 340282366920938463463374607427473244160 lines*'
says one_network 0 '::/0 "A"' ''
says circle 1 '' 'mmdb-list: circle: its search tree leads round in a circle'
says self 1 '' '*leads round in a circle'
says deep 1 '' '*deeper than the 128 bits of an address'
says deep4 1 '' '*deeper than the 32 bits of an address'
says long 1 '' '*deeper than the 128 bits of an address'
says ipv4 0 $'0.0.0.0/1 "A"\n192.0.0.0/2 "B"' ''
says bits24 0 $'2000::/3 "A"\n4000::/2 "A"\n8000::/2 "A"\ne000::/3 "A"' ''
for size in 28 32; do
    says "bits$size" 0 $'2000::/3 "B"\n4000::/2 "A"\n8000::/2 "A"\ne000::/3 "B"' ''
done
values='3.141592653589793,3.1415927410125732,"beef",256,7,-2,9,18446744073709551616,true,false'
says types 0 '8000::/1 \['"$values"',"x\\"é"\]' ''
says nan 1 '8000::/1 damaged: it has no form in JSON' "$damaged"
says bomb 1 '8000::/1 damaged: too many values' "$damaged"
says loop 1 '8000::/1 damaged: too deep' "$damaged"
says nested 1 '8000::/1 damaged: too deep' "$damaged"
says claims 1 '8000::/1 damaged: it leads out of the data section' "$damaged"
says cut 1 '8000::/1 damaged: it is no value of a data section' "$damaged"
says cut_text 1 '8000::/1 damaged: it is *' "$damaged"
says outside 1 '8000::/1 damaged: it leads out of the data section' "$damaged"
says separator 1 '8000::/1 damaged: it leads out of the data section' "$damaged"
says keys 1 '8000::/1 damaged: it is no value of a data section' "$damaged"
says latin 1 '8000::/1 damaged: it is no value of a data section' "$damaged"
says terminal 0 '8000::/1 "\\u001b\[2J\\u009b2J\\u202e"' ''
says texts 1 '' '*the records together are far larger than the file*'
says values 1 '' '*the records together are far larger than the file*'
says metadata_bomb 1 '' 'mmdb-list: metadata_bomb: its metadata are damaged: too deep'
says few_metadata 1 '' '*its metadata have no record_size'
says sizes 1 '' '*its metadata name a record size, *'
says short 1 '' '*its search tree is cut off'
says many 1 '' '*its search tree is cut off'
says cut_off 1 '' '*it is no MaxMind DB file, or its end is cut off'
says empty 1 '' '*it is no MaxMind DB file, or its end is cut off'
says missing 1 '' 'mmdb-list: missing: No such file or directory'
says . 1 '' 'mmdb-list: .: *'
mkfifo pipe && says pipe 1 '' 'mmdb-list: pipe: it is no regular file'
says /dev/zero 1 '' 'mmdb-list: /dev/zero: it is no regular file'
runs 60 400000 "$list" --lines 100000 ladder other
[ "$status $(wc -l < printed)" = '1 100000' ] \
    && grep -q 'there are more differences than that' told \
    || fail "two ladders end with status $status: $(cat told)"
printf '192.0.2.1\n2001:db8::\n' > two
runs 60 400000 "$list" --ask circle < two
[ "$status" -eq 1 ] \
    && [ "$(cut -d ' ' -f 3- printed | sort -u)" = 'damaged: the tree does not end' ] \
    || fail "--ask of a circle prints '$(cat printed)'"
runs 60 400000 "$list" --ask ipv4 < two
[ "$(cat printed)" = $'192.0.2.1 192.0.0.0/2 "B"\n"2001:db8::" - no address of the file' ] \
    || fail "--ask of IPv4 alone prints '$(cat printed)'"
for words in '' 'a b c' '--ask' '--ask a b' '--nothing a' '--in 192.0.2.1/24 a'; do
    # shellcheck disable=SC2086
    runs 20 400000 "$list" $words
    [ "$status" -eq 2 ] || fail "the words '$words' end with status $status"
done

verdict
