#!/usr/bin/env bash
# Lookups in files that are made byte by byte: each kind of value, each cause of a fault, pointers
# of all sizes, the limits on levels, values and bytes, records of 24, 28 and 32 bits; and the data
# section of a file that the program writes. A tree, a data section and a metadata map are given
# here as printf takes them.
set -u
cd "$(dirname "${BASH_SOURCE[0]}")/.." || exit 1
. checks/with_program.bash

gap='\0\0\0\0\0\0\0\0\0\0\0\0\0\0\0\0'
marker='\xAB\xCD\xEFMaxMind.com'
major='\x5Bbinary_format_major_version\xA1\x02' six='\x4Aip_version\xA1\x06'
one='\x4Anode_count\xC1\x01' size='\x4Brecord_size\xA1'
# One node of 24, 28 and 32 bits; 97 nodes; addresses of 32 bits; the record size twice, first 24
# and then 28; no record size.
bits_24="\\xE4$major$six$one$size\\x18" bits_28="\\xE4$major$six$one$size\\x1C"
bits_32="\\xE4$major$six$one$size\\x20"
nodes_97="\\xE4$major$six\\x4Anode_count\\xC1\\x61$size\\x18"
of_ipv4="\\xE4$major\\x4Aip_version\\xA1\\x04$one$size\\x18"
size_twice="\\xE5$major$size\\x18$six$one$size\\x1C" no_size="\\xE3$major$six$one"
# The whole metadata of a file that the program writes, of one node and of 97.
named='\x5Bbinary_format_minor_version\xA0\x4Bbuild_epoch\x04\x02\x65\x53\xF1\x00'
named+='\x4Ddatabase_type\x4CGeofeed-City\x4Bdescription\xE1\x42en\x4CGeofeed-City'
in_en='\x49languages\x01\x04\x42en'
whole="\\xE9$major$named$six$in_en$one$size\\x18"
whole_97="\\xE9$major$named$six$in_en\\x4Anode_count\\xC1\\x61$size\\x18"
# The lower half of all addresses leads to the value at offset 0, the upper half to none.
lower='\0\0\x11\0\0\x01'
germany='\xE1\x47country\xE1\x48iso_code\x42DE' in_germany='{"country":{"iso_code":"DE"}}'
upper=8000:: below_upper=7fff:ffff:ffff:ffff:ffff:ffff:ffff:ffff

# finds ADDR LINE: a lookup of the address in `file` prints this line, and ends as it has to with
# it.
finds() {
    local status wanted=0
    [[ "$2" != 'stop file '* ]] || wanted=9
    "$program" lookup file "$1" > printed 2> told
    status=$?
    printf '%s\n' "$2" > line
    [ "$status" -eq "$wanted" ] && cmp -s line printed \
        || fail "$(head -c 99 file | od -An -v -tx1 | tr -d '\n'): $1 ends with $status, prints" \
            "'$(head -c 300 printed)', and not '${2:0:300}'"
}

# says ADDR TREE SECTION METADATA LINE: the same in a file of these parts.
says() {
    printf "$2$gap$3$marker$4" > file
    finds "$1" "$5"
}

# shows SECTION LINE: the first value of this data section is printed so, or is a fault.
shows() {
    says 0.0.0.0 "$lower" "$1" "$bits_24" "$2"
}

# Records of each size, and what the metadata tells.
shows "$germany" "$in_germany"
says "$upper" "$lower" "$germany" "$bits_24" none
says "$below_upper" '\0\0\x11\0\0\0\x01' "$germany" "$bits_28" "$in_germany"
says 0.0.0.0 '\0\0\x11\x10\0\0\x11' '\xA0' "$bits_28" 'stop file OutOfSection'
says "$upper" '\0\0\x11\x10\0\0\x11' '\xA0' "$bits_28" 0
says "$upper" '\0\0\x11\x01\0\0\x11' '\xA0' "$bits_28" 'stop file OutOfSection'
says 0.0.0.0 '\0\0\0\x12\0\0\0\x01' '\0\xA1\x07' "$bits_32" 7
says 0.0.0.0 '\x01\0\0\x11\0\0\0\x01' '\xA0' "$bits_32" 'stop file OutOfSection'
says 0.0.0.0 '\0\0\x11\0\0\0\x01' '\xA0' "$size_twice" 0
says 0.0.0.0 "$lower" '' '' 'stop file Metadata'
says 0.0.0.0 "$lower" '' "$no_size" 'stop file Metadata'
says 0.0.0.0 "$lower" '\xA0' "$of_ipv4" 'stop file Version'
says 0.0.0.0 '\0\0\x11\0\0' '' "$bits_24" 'stop file TreeCut'
says 0.0.0.0 '\0\0\0\0\0\0' '' "$bits_24" 'stop file NotEnded'
says 0.0.0.0 '\0\0\x02\0\0\x02' '' "$bits_24" 'stop file OutOfSection'
shows '' 'stop file OutOfSection'
: > file
finds 0.0.0.0 'stop file NoMarker'

# The file of no data, damaged in its node, its metadata and at its start.
says 0.0.0.0 '\0\0\x01\0\0\x01' '' "$whole" none
says 0.0.0.7 '\0\0\0\0\0\0' '' "$whole" 'stop file NotEnded'
says 0.0.0.7 '\0\0\x02\0\0\0' '' "$whole" 'stop file OutOfSection'
says 0.0.0.0 '\0\0\x01\0\0\x01' '' '\xE9\x5Bbinary_format_major_ve' 'stop file Metadata'
says 0.0.0.0 '\0\x01\0\0\x01' '' "$whole" 'stop file TreeCut'

# The upper half of IPv4 has a record. Without its first byte the left record of the first node is
# 256.
half=
for ((node = 1; node <= 96; node++)); do
    printf -v half '%s\\0\\0\\x%02x\\0\\0\\x61' "$half" "$node"
done
half+='\0\0\x61\0\0\x71'
for metadata in "$nodes_97" "$whole_97"; do
    says 128.0.0.1 "$half" "$germany" "$metadata" "$in_germany"
    says 127.255.255.255 "$half" "$germany" "$metadata" none
    says 128.0.0.1 "${half:2}" "$germany" "$metadata" 'stop file OutOfSection'
done

# Each kind of value.
each='\x0C\x04\x42DE\x68\x40\x09\x21\xFB\x54\x44\x2D\x18\x82\xAB\x00\xA2\x01\x00\xC1\x07'
each+='\xE1\x41a\xA1\x01\x04\x01\xFF\xFF\xFF\xFF\x01\x02\x09\x02\x03\x01\x00\x01\x04\xA0'
shows "$each\\x01\\x07\\x04\\x08\\xC0\\0\\0\\x01" \
    '["DE","400921fb54442d18","ab00",256,7,{"a":1},-1,9,"256",[0],true,"c0000001"]'
shows '\x42\x44\x45' '"DE"'
shows '\x01\x04\x42\x44\x45' '["DE"]'
shows '\x02\x04\x20\x06\x20\x06\x42DE' '["DE","DE"]'
shows '\x20\x02\xA1\x07' 7
shows '\x01\x07' true
shows '\x00\x07' false
shows '\xA2\xFF\xFF' 65535
shows '\xC0' 0
shows '\x04\x01\x80\x00\x00\x00' -2147483648
shows '\x04\x01\xFF\xFF\xFF\xFE' -2
shows '\x01\x01\x07' 7
shows '\x01\x01\xFF' 255
shows '\x08\x02\xFF\xFF\xFF\xFF\xFF\xFF\xFF\xFF' 18446744073709551615
shows '\x00\x03' '"0"'
shows '\x10\x03\xFF\xFF\xFF\xFF\xFF\xFF\xFF\xFF\xFF\xFF\xFF\xFF\xFF\xFF\xFF\xFF' \
    '"340282366920938463463374607431768211455"'
shows '\x83\x00\xAB\x7f' '"00ab7f"'
shows '\x68\x40\x09\x21\xFB\x54\x44\x2D\x18' '"400921fb54442d18"'
shows '\x04\x08\xC0\0\0\x01' '"c0000001"'
shows '\x4Fa\x22b\x5Cc/d\x08\x0C\x0A\x0D\x09\x00\x1F\x7F' \
    '"a\"b\\c/d\b\f\n\r\t\u0000\u001f'$'\x7F''"'
shows '\x53Zürich 東京 🗺' '"Zürich 東京 🗺"'

# Maps and lists: keys ascend by their bytes, and of two equal ones the last counts.
shows '\xE2\x41b\xA1\x01\x41b\xA1\x02' '{"b":2}'
shows '\xE2\x41b\xA1\x01\x41a\xA1\x02' '{"a":2,"b":1}'
shows '\xE1\x20\x04\xA0\x41a' '{"a":0}'
shows '\xE6\x41b\xA1\x01\x42é\xA1\x02\x41a\xA1\x03\x41b\xA1\x04\x40\xA1\x05\x41B\xA1\x06' \
    '{"":5,"B":6,"a":3,"b":4,"é":2}'
shows '\xE0' '{}'
shows '\x00\x00' '{}'
shows '\x00\x04' '[]'
shows '\x03\x04\xA1\x01\x00\x04\xE1\x41\x0A\x01\x07' '[1,[],{"\n":true}]'

# Faults. A number as a key is read to its end first, a map is not; of a pointer as a key, what it
# leads to is named.
shows '\x42\x44' 'stop file Truncated 0'
shows '\xE1\x41a\x42D' 'stop file Truncated 3'
shows '\x01\x00' 'stop file Truncated 2'
shows '\xE1\xA2\x01' 'stop file Truncated 1'
shows '\x00\x05' 'stop file Kind 0'
shows '\x20\x02\x20\x00' 'stop file PointerToPointer 2'
shows '\x20\0' 'stop file PointerToPointer 0'
shows '\x20\x07' 'stop file OutOfSection 0'
shows '\x41\xFF' 'stop file Utf8 0'
shows '\xE1\xA1\x01\xA0' 'stop file Key 1'
shows '\xE1\xE1' 'stop file Key 1'
shows '\xE1\x20\x03\xA0' 'stop file Key 3'
shows '\xE1\x20\x04\xA0\xA1\x07' 'stop file Key 4'
shows '\xA3\x00\x00\x01' 'stop file Size 0'
shows '\x01\x04\xA3\0\0\x01' 'stop file Size 2'
# A map and a list that hold themselves.
shows '\xE1\x41\x61\x20\x00' 'stop file Deep 1'
shows '\x01\x04\x20\0' 'stop file Deep 2'

# The outermost of 33 lists is at level 1: read from the second one on, they are 32.
lists=
for ((level = 1; level <= 32; level++)); do
    lists+='\x01\x04'
done
shows "$lists\\x00\\x04" 'stop file Deep 64'
printf -v open '[%.0s' {1..32}
says 0.0.0.0 '\0\0\x13\0\0\x01' "$lists\\x00\\x04" "$bits_24" "$open${open//\[/]}"

# With the list, 100,000 values are read and 100,001 are not.
printf -v items 'false,%.0s' {1..99999}
shows "\\x1F\\x04\\x00\\x85\\x82$(printf '\\x00\\x07%.0s' {1..99999})" "[${items%,}]"
shows "\\x1F\\x04\\x00\\x85\\x83$(printf '\\x00\\x07%.0s' {1..100000})" 'stop file Many 200003'

# A list of four pointers to one text of 16,777,216 bytes is read; of five it is not
# (checks/damaged.sh).
{
    printf "$lower$gap"
    printf '\x04\x04\x20\x0A\x20\x0A\x20\x0A\x20\x0A\x5F\xFE\xFE\xE3'
    head -c 16777216 /dev/zero | tr '\0' a
    printf "$marker$bits_24"
} > file
"$program" lookup file 0.0.0.0 > printed 2> told
[ "$? $(wc -c < printed) $(tr -d a < printed)" = '0 67108878 ["","","",""]' ] \
    || fail "a text four times is printed otherwise"

# pointer LENGTH TARGET BYTES: a pointer of so many bytes at offset 0, and a number where it leads.
pointer() {
    {
        printf "$lower$gap$3"
        head -c $(($2 - $1)) /dev/zero
        printf "\\xA1\\x07$marker$bits_24"
    } > file
    finds 0.0.0.0 7
}

pointer 2 6 '\x20\x06'
pointer 3 2048 '\x28\0\0'
pointer 4 526336 '\x30\0\0\0'
pointer 5 6 '\x38\0\0\0\x06'

# pointer_behind TARGET BYTES: a number at the target, and the pointer to it behind it, to which the
# record leads.
pointer_behind() {
    local at=$(($1 + 19))
    {
        printf "$(printf '\\x%02x' $((at >> 16)) $((at >> 8 & 255)) $((at & 255)))\\0\\0\\x01$gap"
        head -c "$1" /dev/zero
        printf "\\xA1\\x07$2$marker$bits_24"
    } > file
    finds 0.0.0.0 7
}

pointer_behind 0 '\x20\x00'
pointer_behind 2047 '\x27\xFF'
pointer_behind 2048 '\x28\x00\x00'
pointer_behind 526335 '\x2F\xFF\xFF'
pointer_behind 526336 '\x30\x00\x00\x00'

# The data section of a city with its country and its region, and of a country: the second value
# stands at 68, and its key and the key in its map are pointers.
printf '192.0.2.0/24,set,DE,DE-BY,München,\n198.51.100.0/24,set,AT,,,\n' > o.csv
printf 'epoch 1\noverrides o.csv\nemit file\n' > job
"$program" build job > printed || fail "build ended with status $?"
read -r _ _ _ nodes _ section _ < printed
printf '\xE3\x44city\xE1\x45names\xE1\x42en\x48München\x47country\xE1\x48iso_code\x42DE' > wanted
printf '\x4Csubdivisions\x01\x04\xE1\x20\x23\x42BY' >> wanted
printf '\xE1\x20\x1A\xE1\x20\x23\x42AT' >> wanted
[ "$section $(wc -c < wanted)" = '77 77' ] \
    || fail "two places have a data section of $section bytes, and not 77"
tail -c "+$((6 * nodes + 17))" file | head -c 77 | cmp -s - wanted \
    || fail "the data section of two places is another"
in_munich='{"city":{"names":{"en":"München"}},"country":{"iso_code":"DE"},'
finds 192.0.2.7 "$in_munich"'"subdivisions":[{"iso_code":"BY"}]}'
finds 198.51.100.7 '{"country":{"iso_code":"AT"}}'

verdict
