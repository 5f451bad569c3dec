#!/usr/bin/env bash
# Damaged files: each cut of a written file and each change of one of its bytes is looked up in, and
# a small file that stands for 2^30 values. The program has to answer each by its status, and never
# be stopped by the system.
set -u
cd "$(dirname "${BASH_SOURCE[0]}")/.." || exit 1
# shellcheck disable=SC2034
in_memory=200000
. checks/with_program.bash

# looked_up NAME: what a lookup prints, and its status in `status`. No process but the program's own
# is made for it.
looked_up() {
    "$program" lookup "$1" 128.0.0.1 > printed 2> /dev/null
    status=$?
    printed=
    IFS= read -r -d '' printed < printed
    printed=${printed%$'\n'}
}

printf 'x|DE|ipv4|128.0.0.0|2147483648||allocated\n' > s.txt
printf 'epoch 1700000000\nstats x s.txt\nemit whole\n' > job
"$program" build job > printed || fail "build ended with status $?"
bytes=$(stat -c %s whole)
[ "$bytes" -eq 985 ] || fail "the written file has $bytes bytes, and not 985"

# The file as text for printf, four characters for each byte.
printf -v text '\\x%02x' $(od -An -v -tu1 whole)

# The marker ends at 796: before that there is none, and behind it the metadata is cut.
for ((at = 0; at < bytes; at++)); do
    printf "${text:0:4 * at}" > cut
    looked_up cut
    wanted='stop file NoMarker'
    [ "$at" -lt 796 ] || wanted='stop file Metadata'
    [ "$status $printed" = "9 $wanted" ] \
        || fail "the first $at bytes give status $status and '$printed'"
done

for ((at = 0; at < bytes; at++)); do
    for change in 1 255; do
        printf -v changed '\\x%02x' $((0${text:4 * at + 1:3} ^ change))
        printf "${text:0:4 * at}$changed${text:4 * at + 4}" > changed
        looked_up changed
        [ "$status" -eq 0 ] || [ "$status" -eq 9 ] \
            || fail "byte $at changed by $change gives status $status and '$printed'"
    done
done

# begun, ended: what stands before a data section, a tree of one node that leads to its first value,
# and behind it.
begun() {
    printf '\0\0\x11\0\0\x11'
    head -c 16 /dev/zero
}
ended() {
    printf '\xAB\xCD\xEFMaxMind.com\xE4\x5Bbinary_format_major_version\xA1\x02'
    printf '\x4Aip_version\xA1\x06\x4Anode_count\xC1\x01\x4Brecord_size\xA1\x18'
}

# Thirty lists, each with the next one twice.
{
    begun
    for ((level = 1; level <= 30; level++)); do
        next=$(printf '\\x%02x' $((6 * level)))
        printf "\\x02\\x04\\x20$next\\x20$next"
    done
    printf '\xA0'
    ended
} > many
looked_up many
[[ "$status $printed" == '9 stop file Many '* ]] \
    || fail "2^30 values give status $status and '$printed'"

# A list of five pointers to one text of 16,777,216 bytes.
{
    begun
    printf '\x05\x04\x20\x0C\x20\x0C\x20\x0C\x20\x0C\x20\x0C\x5F\xFE\xFE\xE3'
    head -c 16777216 /dev/zero | tr '\0' a
    ended
} > big
looked_up big
[ "$status $printed" = '9 stop file Big 12' ] \
    || fail "a text five times gives status $status and '$printed'"

verdict
