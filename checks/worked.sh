#!/usr/bin/env bash
# Worked files: what jobs of a few sources emit, how many nodes and bytes their files have, and what
# these answer.
set -u
cd "$(dirname "${BASH_SOURCE[0]}")/.." || exit 1
. checks/with_program.bash

# emits WANTED STEP..: the job of these steps prints that.
emits() {
    local wanted=$1 status
    shift
    { echo 'epoch 1700000000' && printf '%s\n' "$@"; } > job
    "$program" build job > printed 2> told
    status=$?
    [ "$status" -eq 0 ] && [ "$(cat printed)" = "$wanted" ] ||
        fail "'$*' ends with status $status: '$(cat printed told)', and not '$wanted'"
}

# stats NAME FIRST COUNT CODE: the file NAME has one delegation.
stats() { echo "x|$4|ipv4|$2|$3||allocated" > "$1"; }

# answers ADDRESS CODE: the file `o` has this country for an address, or nothing where there is no
# code.
answers() {
    local wanted=none printed
    [ -z "$2" ] || wanted="{\"country\":{\"iso_code\":\"$2\"}}"
    printed=$("$program" lookup o "$1" 2>&1)
    [ "$printed" = "$wanted" ] || fail "$1 has the record '$printed', and not '$wanted'"
}

# hex FILE: its bytes, two digits each.
hex() { od -An -v -tx1 "$1" | tr -d ' \n'; }

# section NODES SPELT: behind so many nodes of six bytes and sixteen zero bytes the file `o` has
# this data section, spelt as `printf` reads it, and the first letters of the marker.
section() {
    local rest
    # shellcheck disable=SC2059
    printf "$2\xAB\xCD\xEFMaxMind.com" > wanted
    tail -c "+$((6 * $1 + 17))" o > rest
    rest=$(hex rest)
    [[ "$rest" == "$(hex wanted)"* ]] || fail "the data section begins with ${rest:0:160}"
}

emits 'emit o nodes 1 data 0 bits 24 bytes 225' 'emit o'
stats x 128.0.0.0 2147483648 DE
emits 'emit o nodes 124 data 22 bits 24 bytes 985' 'stats x x' 'emit o'
stats x 192.0.2.0 768 DE
emits 'emit o nodes 148 data 22 bits 24 bytes 1129' 'stats x x' 'emit o'
stats x 255.255.255.255 1 DE
emits 'emit o nodes 155 data 22 bits 24 bytes 1171' 'stats x x' 'emit o'
stats x 10.0.0.0 128 DE
stats y 10.0.1.0 128 DE
emits 'emit o nodes 148 data 22 bits 24 bytes 1129' 'stats x x' 'stats y y' 'emit o'
stats x 192.0.2.0 128 DE
stats y 192.0.2.128 128 DE
emits 'emit o nodes 147 data 22 bits 24 bytes 1123' 'stats x x' 'stats y y' 'emit o'
echo '::/0,set,DE' > own
emits 'emit o nodes 123 data 22 bits 24 bytes 979' 'overrides own' 'emit o'

# An override that moved.
echo '10.0.0.0/8,set,FR' > own
echo '11.0.0.0/8,set,FR' > moved
emits $'emit o nodes 131 data 22 bits 24 bytes 1027\nemit o nodes 131 data 22 bits 24 bytes 1027' \
    'overrides own' 'emit o' 'overrides moved' 'emit o'
answers 10.0.0.1 ''
answers 11.0.0.1 FR

# The two lines of a file, of which one is noted, are swapped.
stats x 10.0.0.0 256 DE
cp x swapped
echo 'x|ZZ|ipv4|10.0.1.0|256||allocated' >> x
echo 'x|ZZ|ipv4|10.0.1.0|256||allocated' | cat - swapped > y
emits $'stats x 2 S06\nnotes 1\nemit o nodes 147 data 22 bits 24 bytes 1123
stats x 1 S06\nnotes 1\nemit p nodes 147 data 22 bits 24 bytes 1123' \
    'stats x x' report 'emit o' 'drop stats x' 'stats x y' report 'emit p'
cmp -s o p || fail "the file changes with the order of lines"

# Ranges that nest, overlap without nesting, repeat, and touch both ends of both families; those
# that no line of statistics can have are overrides.
stats g 0.0.0.0 4294967296 US
stats f 10.0.0.0 16777216 DE
stats e 10.0.0.0 16777216 AT
stats d 10.128.0.0 16777215 FR
stats c 0.0.0.0 1 NL
printf '%s\n' '::2:0:0-ffff:ffff:ffff:ffff:ffff:ffff:ffff:ffff,set,SE' \
    '::ffff:ffff-::1:0:0,set,CH' \
    'ffff:ffff:ffff:ffff:ffff:ffff:ffff:ffff/128,set,JP' > own
emits 'emit o nodes 343 data 76 bits 24 bytes 2354' \
    'stats g g' 'stats f f' 'stats e e' 'stats d d' 'stats c c' 'overrides own' 'emit o'
while read -r address code; do
    answers "$address" "$code"
done << 'END'
:: NL
0.0.0.1 US
9.255.255.255 US
10.0.0.0 AT
10.128.0.0 FR
11.127.255.254 FR
11.127.255.255 US
255.255.255.255 US
::1:0:0 CH
::1:0:1
::2:0:0 SE
ffff:ffff:ffff:ffff:ffff:ffff:ffff:fffe SE
ffff:ffff:ffff:ffff:ffff:ffff:ffff:ffff JP
::fffe:ffff:ffff SE
::ffff:10.128.0.0 FR
::ffff:255.255.255.255 US
2001:ffff:: SE
2002:a00::1 AT
2003:: SE
END

# Pointers, byte by byte: to a key, to a value, and what is shorter in full. The sections are put
# together by hand.
"$program" gen 1 o > printed 2>&1
section 151 '\xE2\x44city\xE1\x45names\xE1\x42en\x46City 0\x47country\xE1\x48iso_code\x42CH'\
'\xE1\x20\x18\xE1\x20\x21\x42US'
printf '%s\n' 'inetnum: 192.0.2.0 - 192.0.2.255' 'geofeed: https://e.example/f.csv' > r.db
echo '192.0.2.0/25,de,DE-BY,München,' > f.csv
stats x 192.0.2.0 256 AT
emits 'emit o nodes 148 data 77 bits 24 bytes 1184' \
    'rpsl r r.db' 'stats x x' 'feed https://e.example/f.csv f.csv' 'emit o'
section 148 '\xE3\x44city\xE1\x45names\xE1\x42en\x48München\x47country\xE1\x48iso_code\x42DE'\
'\x4Csubdivisions\x01\x04\xE1\x20\x23\x42BY\xE1\x20\x1A\xE1\x20\x23\x42AT'
printf '%s\n' '10.0.0.0/25,set,FR,DE-BY' '10.0.0.128/25,set,FR,FR-BY' > own
emits 'emit o nodes 148 data 52 bits 24 bytes 1159' 'overrides own' 'emit o'
section 148 '\xE2\x47country\xE1\x48iso_code\x42FR'\
'\x4Csubdivisions\x01\x04\xE1\x20\x0A\x42BY\xE2\x20\x01\x20\x09\x20\x16\x20\x23'

verdict
