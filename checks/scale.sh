#!/usr/bin/env bash
# Sizes that tests do not have, within limits of time and memory: 300,000 made lines of statistics,
# 100,000 lines that are noted, a comment of 5,000 bytes, sources of all kinds with a second emit, a
# list that claims 16.8 million values, and a file with records of 28 bits.
set -u
cd "$(dirname "${BASH_SOURCE[0]}")/.." || exit 1
made=$PWD/bench/statistics.awk
world=$PWD/bench/world.awk
. checks/with_program.bash

# runs SECONDS KILOBYTES WORDS..: what the program prints, in the file `printed`, and its status in
# `status`. The seconds are those of the processor, so that a busy machine fails nothing.
runs() {
    local seconds=$1 kilobytes=$2
    shift 2
    (ulimit -v "$kilobytes" -t "$seconds" \
        && exec timeout $((20 * seconds)) "$program" "$@") > printed
    status=$?
}

# The bytes of the file are those that another program wrote from the same lines and rules.
awk -v lines=300000 -f "$made" > s.txt
printf 'epoch 1700000000\nstats made s.txt\nemit out.mmdb\n' > job
runs 20 400000 build job
wanted='emit out.mmdb nodes 178378 data 490 bits 24 bytes 1070979'
[ "$status $(cat printed)" = "0 $wanted" ] \
    || fail "300,000 lines end with status $status and '$(cat printed)'"
sum=$(md5sum < out.mmdb 2>&1)
[ "$sum" = '0ec6ccd75f050650c92400c553fcbb2b  -' ] \
    || fail "300,000 lines make a file of another sum, $sum"

# Sources of all kinds, and a second emit after one line of a feed changed; the other program's
# bytes again.
awk -v lines=100000 -f "$made" > stats.txt
awk -v lines=100000 -f "$world"
runs 20 400000 build job
wanted='emit out.mmdb nodes 226633 data 587011 bits 24 bytes 1947030
emit second.mmdb nodes 226633 data 587120 bits 24 bytes 1947139'
[ "$status $(cat printed)" = "0 $wanted" ] \
    || fail "sources of all kinds end with status $status and '$(cat printed)'"
sum=$(cat out.mmdb second.mmdb 2>&1 | md5sum)
[ "$sum" = '248753193bd68d470ceecf363da36530  -' ] \
    || fail "sources of all kinds make files of another sum, $sum"

# As many delegations as before are not too many, and as many notes: one for each line.
awk 'BEGIN { for (n = 0; n < 100000; n++) print "x|DE|ipv4|here|256||allocated" }' > s.txt
printf 'epoch 1700000000\nstats made s.txt\nreport\nemit out.mmdb\n' > job
runs 20 400000 build job
awk 'BEGIN { for (n = 1; n <= 100000; n++) print "stats made " n " S04"; print "notes 100000"
    print "emit out.mmdb nodes 1 data 0 bits 24 bytes 225" }' > wanted
[ "$status" -eq 0 ] && cmp printed wanted \
    || fail "100,000 noted lines end with status $status and $(wc -l < printed) lines"

# A comment of 5,000 bytes in a job, and one in a source.
comment=$(printf '#%4999s' '' | tr ' ' x)
printf '%s\nx|DE|ipv4|128.0.0.0|2147483648||allocated\n' "$comment" > s.txt
printf '%s\nepoch 1700000000\nstats x s.txt\nemit out.mmdb\n' "$comment" > job
runs 5 200000 build job
[ "$status $(cat printed)" = '0 emit out.mmdb nodes 124 data 22 bits 24 bytes 985' ] \
    || fail "long comments end with status $status"

# A tree of one node, whose two records lead to a list that claims 16,843,036 values and has none.
{
    printf '\0\0\x11\0\0\x11'
    head -c 16 /dev/zero
    printf '\x1F\x04\xFF\xFF\xFF'
    printf '\xAB\xCD\xEFMaxMind.com\xE4\x5Bbinary_format_major_version\xA1\x02'
    printf '\x4Aip_version\xA1\x06\x4Anode_count\xC1\x01\x4Brecord_size\xA1\x18'
} > claims
runs 5 200000 lookup claims 192.0.2.1
[[ "$status $(cat printed)" == '9 stop file '* ]] \
    || fail "a list that claims 16.8 million values ends with status $status and '$(cat printed)'"

# Records of 28 bits: 100,000 ranges of 16 addresses, each with one of 20,000 cities, whose names
# have 1,000 bytes. Two feeds have them, and a dump the references to both. Perl makes the feeds,
# and of some ranges the city of their ends and none beside.
if needs perl perl; then
    perl -Minteger -e '
        sub text { my $at = shift; join ".", map { $at >> $_ & 255 } 24, 16, 8, 0 }
        my @feeds = map { open(my $feed, ">", "wide$_.csv") or die; $feed } 0, 1;
        open(my $places, ">", "places") or die;
        for my $n (0 .. 99999) {
            my $once = (($n ^ $n >> 16) * 0x7feb352d) & 0xffffffff;
            my $twice = (($once ^ $once >> 15) * 0x846ca68b) & 0xffffffff;
            my $mixed = $twice ^ $twice >> 16;
            my $first = 0x10000000 + $n * 32 + ($mixed & 1) * 16;
            my $city = sprintf "%d", ($mixed >> 1) % 20000;
            my $name = "x" x (1000 - length $city) . $city;
            printf { $feeds[$n / 50000] } "%s/28,DE,,%s,\n", text($first), $name;
            next if ($n - 7) % 4999;
            for ([$first, $city], [$first + 15, $city], [$first + ($mixed & 1 ? -1 : 16), ""]) {
                printf $places "%s %s\n", text($$_[0]), $$_[1];
            }
        }'
    printf 'inetnum: %s\ngeofeed: https://made.example/wide%d.csv\nsource: MADE\n\n' \
        '16.0.0.0 - 16.24.105.255' 0 '16.24.106.0 - 16.255.255.255' 1 > wide.db
    printf 'epoch 1700000000\nrpsl made wide.db\n' > job
    printf 'feed https://made.example/wide%d.csv wide%d.csv\n' 0 0 1 1 >> job
    printf 'report\nemit wide.mmdb\n' >> job
    # A long feed takes its room ahead, which is addresses and not memory.
    runs 20 1200000 build job
    [ "$status" -eq 0 ] && [ "$(head -n 1 printed)" = 'notes 0' ] \
        && grep -q '^emit wide.mmdb nodes .* bits 28 bytes ' printed \
        || fail "records of 28 bits end with status $status and '$(cat printed)'"
    [ "$status" -eq 0 ] || verdict
    has_mmdblookup=
    ! needs mmdblookup mmdb-bin || has_mmdblookup=yes
    while read -r at city; do
        wanted=none
        name=$(printf '%1000s' "$city" | tr ' ' x)
        [ -z "$city" ] || wanted='{"city":{"names":{"en":"'$name'"}},"country":{"iso_code":"DE"}}'
        [ "$("$program" lookup wide.mmdb "$at")" = "$wanted" ] \
            || fail "records of 28 bits: $at has not city $city"
        [ -n "$has_mmdblookup" ] || continue
        other=$(mmdblookup --file wide.mmdb --ip "$at" city names en 2>&1 \
            | sed -n 's/^ *"x*\([0-9]*\)" <utf8_string>.*/\1/p')
        [ "$other" = "$city" ] \
            || fail "records of 28 bits: mmdblookup of $at finds '$other', and not $city"
    done < places
    [ "$(wc -l < places)" -eq 63 ] \
        || fail "records of 28 bits: $(wc -l < places) addresses are looked up, and not 63"
fi

verdict
