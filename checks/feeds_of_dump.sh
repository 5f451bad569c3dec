#!/usr/bin/env bash
# The script contrib/feeds-of-dump, without a network: which feeds it finds in a dump by a job's
# report and without one, what its filter keeps of a dump, what it does with feeds that come and
# feeds that do not, and the lines that it makes for a job. What it does with a server is tried by
# checks/fetch.sh.
set -u
cd "$(dirname "${BASH_SOURCE[0]}")/.." || exit 1
script=$PWD/contrib/feeds-of-dump
example=$PWD/examples/realistic
. checks/with_program.bash
[ -x /usr/bin/python3 ] || skip "there is no python3 (Debian's python3)"

# A reference in each shape: an attribute, one with a comment, a continued one, a remark with words
# behind it, and a line end of two bytes; and two objects that name one feed. Line 5 is Latin-1.
{
    echo 'inetnum: 192.0.2.0 - 192.0.2.255'
    echo 'geofeed: https://a.example/one.csv # see mail'
    echo
    echo 'inetnum: 198.51.100.0 - 198.51.100.255'
    printf 'descr: M\xfcnchen\n'
    echo 'remarks: Geofeed https://b.example/two.csv?x=%27 and more'
    echo
    printf 'inet6num: 2001:db8::/32\r\n'
    printf 'geofeed:\r\n'
    echo '% a comment between'
    printf '+ https://c.example/it'"'"'s three.csv\r\n\r\n'
    echo 'inetnum: 203.0.113.0 - 203.0.113.255'
    echo 'geofeed: https://a.example/one.csv'
    echo
    echo 'inetnum: 203.0.112.0 - 203.0.112.255'
    echo 'geofeed: https://d.example/set.csv'
} > dump
printf 'epoch 1\nrpsl other nothing\nrpsl ripe dump\nreport\n' > job
printf 'rpsl ripe %s P09\n' 2 6 9 14 > report
printf '%s\n' 'rpsl ripe 2 P08' 'rpsl none 2 P09' 'rpsl ripe 17 P10' 'notes 7' \
    'emit x nodes 1 data 0 bits 24 bytes 225' >> report

"$script" job report > list || fail "it ends with status $?"
[ "$(cut -d ' ' -f 1 list)" = "https://a.example/one.csv
https://b.example/two.csv?x=%27
https://c.example/it's%20three.csv" ] || fail "it finds '$(cat list)'"
while read -r url file; do
    [ "$file" = "feeds/$(printf %s "$url" | sha256sum | cut -c 1-20)" ] \
        || fail "the file of $url is $file"
done < list
"$script" job report elsewhere | cut -d ' ' -f 2 | grep -qv '^elsewhere/' \
    && fail "the folder is not the one that was asked for"

cat > fetch <<'END'
#!/bin/sh
# fetch FILE URL, which the feed of b.example does not come for.
printf '%s\n' "$2" >> fetched
case "$2" in
    https://b.example/*) echo half > "$1"; exit 18 ;;
    *) echo "192.0.2.0/24,DE,,," > "$1" ;;
esac
END
chmod +x fetch
"$script" --named dump > named \
    && [ "$(cut -d ' ' -f 1 named)" = "$(cut -d ' ' -f 1 list; echo https://d.example/set.csv)" ] \
    || fail "without a report it finds '$(cat named)'"
FETCH=./fetch "$script" --fetch list 2> told
[ $? -eq 1 ] || fail "a fetch that lacks a feed ends otherwise"
[ "$(sort fetched)" = "$(cut -d ' ' -f 1 list | sort)" ] || fail "it fetches '$(cat fetched)'"
why='the command that fetches ends with status 18'
grep -qx "feeds-of-dump: not fetched: https://b.example/two.csv?x=%27: $why" told \
    && grep -q ': 1 of 3 did not come$' told \
    || fail "it says '$(cat told)'"
"$script" --lines list > lines
[ "$(cut -d ' ' -f 1,2 lines)" = "feed https://a.example/one.csv
feed https://c.example/it's%20three.csv" ] || fail "its lines are '$(cat lines)'"

# What came the day before stays where nothing whole comes.
second=$(sed -n '2s/.* //p' list)
echo "198.51.100.0/24,FR,,," > "$second"
FETCH=./fetch "$script" --fetch list 2> told
[ "$(cat "$second")" = "198.51.100.0/24,FR,,," ] && [ ! -e "$second.new" ] \
    || fail "a feed that breaks off takes the place of the old one"
[ "$("$script" --lines list | wc -l)" -eq 3 ] || fail "the old feed has no line"
for words in '' 'job' '--fetch' '-x' '--lines a b' '--fetch list --kind x'; do
    # shellcheck disable=SC2086
    "$script" $words > printed 2>&1
    [ $? -eq 2 ] && grep -q 'feeds-of-dump JOB REPORT' printed \
        || fail "'$words' ends otherwise: $(cat printed)"
done
for words in '--lines none' 'job none' 'none report' '--named none' '--fetch none' \
    '--filter none'; do
    # shellcheck disable=SC2086
    "$script" $words > printed 2>&1
    [ $? -eq 3 ] && [ "$(cat printed)" = 'feeds-of-dump: none: No such file or directory' ] \
        || fail "'$words' ends otherwise: $(cat printed)"
done

# judged TEXT WANTED: what a feed of these bytes comes to beside one of four lines that is there.
judged() {
    printf '%s\n' 192.0.2.{0..3}/32,DE > "$second"
    printf '%b' "$1" > served
    FETCH='cp_to' PATH=$work:$PATH "$script" --fetch one > printed 2>&1
    grep -qF -- "$2" printed || { [ -z "$2" ] && [ ! -s printed ]; } \
        || fail "'$1' comes to '$(cat printed)'"
    { [ -z "$2" ] && cmp -s served "$second"; } \
        || { [ -n "$2" ] && [ "$(wc -l < "$second")" -eq 4 ]; } \
        || fail "'$1' leaves '$(cat "$second")'"
}
printf '#!/bin/sh\ncp served "$1"\n' > cp_to && chmod +x cp_to
sed -n 2p list > one
judged '192.0.2.0/24,DE\n192.0.2.0/25,FR,,Paris,\n' ''
judged '\xef\xbb\xbf"192.0.2.0/24","DE"\r\n2001:db8::/32\r\n' ''
judged '' 'no line of a feed is in it'
judged '# nothing\n\n' 'no line of a feed is in it'
judged '\n <!DOCTYPE html><html>' 'a web page and no feed'
judged '{"error": 1}\n' 'no line of a feed is in it'
judged '192.0.2.0/24;DE\n192.0.2.0/25;FR\n' 'no line of a feed is in it'
judged '\x1f\x8b\x08\0\0' 'no line of a feed is in it'
judged '192.0.2.0/24,DE\n192.0.2.1/24,DE\n192.0.2.0/25,GER\n' 'it has 1 lines that speak, and had 4'
url=$(cut -d ' ' -f 1 one)
printf '%s\n' 192.0.2.{0..3}/32,DE > "$second" && echo 192.0.2.0/24,DE > served
FETCH=cp_to PATH=$work:$PATH "$script" --fetch one --accept "$url" \
    && [ "$(cat "$second")" = 192.0.2.0/24,DE ] || fail "--accept takes it not"

# On a terminal it says how far it is.
if needs script bsdutils; then
    FETCH=./fetch script -qec "'$script' --fetch list" /dev/null < /dev/null > printed
    grep -q '3 of 3 fetched, 1 did not come, 0.0 MB' printed \
        || fail "on a terminal it says '$(cat printed)'"
fi

# Names that a stranger could choose so that they act: none leaves the folder, or is more than a
# word.
cat > dump <<'END'
inetnum: 192.0.2.0 - 192.0.2.255
geofeed: https://a.example/../../../etc/passwd

inetnum: 192.0.2.0 - 192.0.2.127
geofeed: https://a.example/$(touch acted);`touch acted`|touch acted&'"<>{a,b}[1-3]

inetnum: 192.0.2.0 - 192.0.2.63
geofeed: https://-o/etc/passwd

inetnum: 192.0.2.0 - 192.0.2.31
geofeed: https://a.example@127.0.0.1/

inetnum: 192.0.2.0 - 192.0.2.15
geofeed: file:///etc/passwd

inetnum: 192.0.2.0 - 192.0.2.7
geofeed: https://a.example/a
geofeed: https://a.example/b

inetnum: 192.0.2.0 - 192.0.2.3
geofeed: https://A.Example:443
remarks: Geofeed https://c.example/not

route: 192.0.2.0/24
geofeed: https://d.example/route
END
"$script" --named dump > list
[ "$(cut -d ' ' -f 1 list)" = 'https://a.example/../../../etc/passwd
https://a.example/$(touch%20acted);`touch%20acted`|touch%20acted&'"'"'"<>{a,b}[1-3]
https://-o/etc/passwd
https://a.example@127.0.0.1/
https://a.example/' ] || fail "it finds '$(cat list)'"
FETCH=./fetch "$script" --fetch list
[ ! -e acted ] && [ "$(find . -newer list -path './feeds/*' -type f | wc -l)" -eq 5 ] \
    || fail "a URL acts: $(find . -newer list)"
"$script" --fetch list --seconds 1 2> told
url=https://a.example@127.0.0.1/
grep -qxF "feeds-of-dump: not fetched: $url: the URL has no form that is fetched" told \
    && grep -qF 'not fetched: https://-o/etc/passwd: the name -o is not resolved' told \
    || fail "of such URLs it says '$(cat told)'"

# Ten thousand feeds with URLs of 70 bytes fit a job.
awk 'BEGIN {
    for (n = 0; n < 10000; n++) {
        printf "inetnum: 10.%d.%d.0/24\ngeofeed: ", n / 256, n % 256
        printf "https://geo.a-name-of-some-length.example.net/their/folder/%07d.csv\n\n", n
    }
}' > dump
"$script" --named dump > list
[ "$(head -n 1 list | cut -d ' ' -f 1 | tr -d '\n' | wc -c)" -eq 70 ] \
    && [ "$(wc -l < list)" -eq 10000 ] || fail "the list of 10,000 is another"
cut -d ' ' -f 2 list | xargs -n 500 touch
{ printf 'epoch 1\nrpsl ripe dump\n' && "$script" --lines list && echo 'emit x.mmdb'; } > job
"$program" build job > printed 2>&1 \
    || fail "the job of $(wc -c < job) bytes is refused: $(cat printed)"
rm -rf feeds

# The filter: of the whole dump and of what it keeps come the same file and the same feeds, with
# either line end, packed or plain, with an object larger than what is read at a time.
awk -v lines=3000 -f "$OLDPWD/bench/world.awk" 2> /dev/null || fail "bench/world.awk makes no dump"
awk 'BEGIN {
    for (n = 0; n < 60000; n++) {
        printf "inetnum: 10.%d.%d.%d/32\n", n / 65536, n / 256 % 256, n % 256
        printf "descr: nothing of feeds\n\n"
    }
    printf "person: x\n"
    for (n = 0; n < 40000; n++) print "remarks: of a person without a feed"
    print ""
}' > plain.db
cat plain.db dump.db plain.db > whole.db
sed 's/$/\r/' whole.db > returns.db
gzip -c whole.db > whole.gz
{ gzip -c plain.db; gzip -c dump.db; } > two.gz
"$script" --named whole.db > named.whole
for dump in whole.db returns.db whole.gz two.gz; do
    "$script" --filter "$dump" > kept.db || fail "the filter ends with status $? for $dump"
    [ "$(wc -c < kept.db)" -lt $((2 * $(wc -c < dump.db))) ] \
        || fail "the filter keeps $(wc -c < kept.db) bytes of $dump"
    "$script" --named kept.db | cmp -s - named.whole || fail "the filter loses a feed of $dump"
    for source in whole.db kept.db; do
        {
            printf 'epoch 1\nrpsl r %s\n' $source && grep '^feed ' job && echo "emit $source.mmdb"
        } > filtered
        "$program" build filtered > printed 2>&1 \
            || fail "the job of $source is refused: $(cat printed)"
    done
    cmp -s whole.db.mmdb kept.db.mmdb || fail "the filter changes the file of $dump"
done
head -c 3000 whole.gz > half.gz
"$script" --filter half.gz > printed 2> told
[ $? -eq 1 ] && grep -q 'not whole' told || fail "half a dump is taken: $(cat told)"
tr '\n' ' ' < plain.db > one.line
"$script" --filter one.line > printed 2> told
[ $? -eq 1 ] && grep -q 'no empty line' told || fail "a file without objects is taken: $(cat told)"

# The report and the job's lines are those of the program.
cp "$example/ripe.db" .
printf 'epoch 1\nrpsl ripe ripe.db\nreport\n' > job
"$program" build job > report
"$script" job report > list
[ "$(cut -d ' ' -f 1 list | tr '\n' ' ')" = "$(printf 'https://geo.example.%s ' \
    net/a.csv net/b.csv net/c.csv org/d.csv)" ] \
    || fail "it finds '$(cat list)' in the example"
FETCH=./fetch "$script" --fetch list
{ echo 'epoch 1' && echo 'rpsl ripe ripe.db' && "$script" --lines list && echo report; } > job
"$program" build job > report 2> told \
    || fail "the job with its lines is refused: $(cat report told)"
! grep -q P09 report || fail "a feed is not set: $(cat report)"

verdict
