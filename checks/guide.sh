#!/usr/bin/env bash
# The commands of docs/guide.md, taken from the page and run in its order, with a `curl` that copies
# made files. And the example lines of docs/statistics.md, each of which has to be noted with its
# code, and the quick start of README.md. What the daily run does on bad days is tried by
# checks/daily.sh.
set -u
cd "$(dirname "${BASH_SOURCE[0]}")/.." || exit 1
guide=$PWD/docs/guide.md
statistics=$PWD/docs/statistics.md
readme=$PWD/README.md
examples=$PWD/examples
contrib=$PWD/contrib
made=$PWD/bench/statistics.awk
. checks/with_program.bash
[ -x /usr/bin/python3 ] || skip "there is no python3 (Debian's python3)"
mkdir bin net
ln -s "$program" bin/geofeed
for tool in feeds-of-dump geofeed-daily geofeed-notes; do
    ln -s "$contrib/$tool" "bin/$tool"
done
# The last word is the URL and the one before it the file. What is not in the folder net is answered
# as by a server's 503.
cat > bin/curl <<'END'
#!/bin/sh
while [ $# -gt 2 ]; do shift; done
cp "$NET/${2##*/}" "$1" 2> /dev/null || exit 22
END
chmod +x bin/curl
export PATH="$work/bin:$PATH" NET="$work/net" FETCH=curl
{
    awk -v lines=120000 -f "$made" | grep -v '|summary$' | sed 1d
    echo 'nro|CH|ipv4|192.0.2.0|256|20240301|allocated|a|e-stats'
    echo 'nro|AT|ipv6|2001:db8::|32|20240301|allocated|b|e-stats'
    echo 'nro|ZZ|ipv4|192.0.3.0|256|20240301|allocated|c|e-stats'
} > records
{
    echo "2.3|nro|20240301|$(wc -l < records)|19830101|20240301|+0000"
    echo 'nro|*|ipv4|*|1603|summary'
    cat records
} > net/nro-delegated-stats
cat > inetnum <<'END'
inetnum: 192.0.2.0 - 192.0.2.255
remarks: Geofeed https://geo.example.net/a.csv

inetnum: 198.51.100.0 - 198.51.100.255
geofeed: https://geo.example.net/gone.csv
END
gzip -c inetnum > net/ripe.db.inetnum.gz
printf 'inet6num: 2001:db8::/32\ngeofeed: https://geo.example.net/six.csv\n' \
    | gzip -c > net/ripe.db.inet6num.gz
# The other registries' dumps name the same feed.
for dump in apnic.db.inetnum apnic.db.inet6num afrinic.db; do
    cp net/ripe.db.inet6num.gz "net/$dump.gz"
done
echo '192.0.2.0/25,CH,CH-ZH,Zurich,' > net/a.csv
echo '2001:db8::/33,AT,AT-9,Wien,' > net/six.csv

# The page's commands, block by block.
sed -n '/^```sh$/,/^```$/p' "$guide" | grep -v '^```' > commands
[ "$(wc -l < commands)" -gt 50 ] \
    || fail "docs/guide.md has only $(wc -l < commands) lines of commands"
bash -eu commands > printed 2> told \
    || fail "the guide's commands end with status $?: $(cat printed told)"
grep -qx 'notes 1' printed && grep -q '^emit country.mmdb nodes ' printed \
    && grep -qxF '{"country":{"iso_code":"CH"}}' printed \
    && grep -qxF '{"country":{"iso_code":"AT"}}' printed \
    || fail "the guide's commands print '$(cat printed)'"
if grep -q '^geofeed check ' commands; then
    grep -qx '1 speaks ripe4 2' printed && grep -qx 'lines 1' printed \
        && grep -qE '^CH [0-9]+ [0-9]+$' printed \
        && grep -qE '^countries [0-9]+$' printed \
        || fail "the guide's check and census print '$(cat printed)'"
fi

cd geo || exit 1
[ "$(cat ../told)" = "feeds-of-dump: not fetched: https://geo.example.net/gone.csv: \
the command that fetches ends with status 22
feeds-of-dump: 1 of 3 did not come" ] || fail "the guide's commands say '$(cat ../told)'"
grep -q 'DE-BE,Berlin' feed.csv || fail "the feed that is published is '$(cat feed.csv)'"
grep -qF "ripe.inetnum:5: P09 the feed is not among the sources: \
geofeed: https://geo.example.net/gone.csv" notes \
    || fail "the notes in words are '$(cat notes)'"
zurich=$(printf %s '{"city":{"names":{"en":"Zurich"}},"country":{"iso_code":"CH"},' \
    '"subdivisions":[{"iso_code":"ZH"}]}')
[ "$(geofeed lookup daily/city.mmdb 192.0.2.1)" = "$zurich" ] \
    || fail "the daily file is wrong: $(geofeed lookup daily/city.mmdb 192.0.2.1)"
[ "$(geofeed lookup daily/city.mmdb 192.0.2.200)" = '{"country":{"iso_code":"CH"}}' ] \
    || fail "the daily file has no country of the statistics"
[ "$(geofeed lookup daily/city.mmdb 198.51.100.7)" = "$(geofeed lookup city.mmdb 198.51.100.7)" ] \
    || fail "the daily file is without the overrides"
[ "$(find daily/runs -name city.mmdb | wc -l)" -eq 2 ] \
    && grep -q '^city.mmdb is that of .*/runs/000001; ' ../printed \
    || fail "no run is kept, or it does not go back: $(cat ../printed)"

count=0
while read -r code line; do
    printf '%s\n' "${line//\\|/|}" > source
    printf 'epoch 1\nstats x source\nreport\n' > job
    [ "$(geofeed build job)" = "stats x 1 $code"$'\n''notes 1' ] \
        || fail "'$line' of docs/statistics.md is not noted $code"
    count=$((count + 1))
done < <(sed -n 's/^| \(S[0-9][0-9]\) | `\(.*\)` | .*/\1 \2/p' "$statistics")
[ "$count" -eq 7 ] || fail "docs/statistics.md has $count example lines, and not one for each code"

# block TAG: the lines of the README's blocks of this tag.
block() { sed -n "/^\`\`\`$1\$/,/^\`\`\`\$/p" "$readme" | grep -v '^```'; }

cp -r "$examples" . && ln -s "$program" geofeed
block sh > commands
bash -eu commands > printed 2> told \
    || fail "the README's commands end with status $?: $(cat printed told)"
[ -s commands ] && block text | cmp -s - printed \
    || fail "the README's commands print '$(cat printed)'"
sed -n 's/^.* in that folder `\(.*\)` prints `\(.*\)`\.$/\1\n\2/p' "$readme" > lookup
[ "$(wc -l < lookup)" -eq 2 ] \
    && [ "$(cd examples/first && bash -c "$(head -n 1 ../../lookup)")" = "$(tail -n 1 lookup)" ] \
    || fail "the README's lookup prints otherwise"

verdict
