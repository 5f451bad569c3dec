#!/usr/bin/env bash
# `feeds-of-dump --fetch` and one whole `geofeed-daily` with the real `curl`, against servers by TLS
# with a CA of their own, in a network and with names of their own (checks/daily/server.py): what is
# taken, what is refused and why, and which addresses are never asked. The table is at the end of
# this file.
set -u
cd "$(dirname "${BASH_SOURCE[0]}")/.." || exit 1
script=$PWD/contrib/feeds-of-dump
daily=$PWD/contrib/geofeed-daily
server=$PWD/checks/daily/server.py
table=$PWD/checks/fetch.sh
. checks/with_program.bash
for need in curl:curl openssl:openssl ip:iproute2 unshare:util-linux mount:mount \
    /usr/bin/python3:python3; do
    command -v "${need%%:*}" > /dev/null || skip "there is no ${need%%:*} (Debian's ${need#*:})"
done
own=(unshare --net --mount)
[ "$(id -u)" -eq 0 ] || own=(unshare --user --map-root-user --net --mount)
"${own[@]}" ip link set lo up 2> told \
    || skip "a network of its own cannot be made here: $(cat told)"

# certificate NAME CA DAYS NAMES: a key and a certificate for these names.
certificate() {
    openssl req -newkey ec -pkeyopt ec_paramgen_curve:prime256v1 -nodes \
        -keyout "$1.key" -out "$1.csr" -subj "/CN=$1" 2> told \
        && openssl x509 -req -in "$1.csr" -CA "$2.pem" -CAkey "$2.key" -CAcreateserial \
            -days "$3" -out "$1.pem" -extfile <(echo "subjectAltName=$4") 2> told \
        || fail "openssl makes no certificate: $(cat told)"
}
for ca in ca otherca; do
    openssl req -x509 -newkey ec -pkeyopt ec_paramgen_curve:prime256v1 -nodes -days 30 \
        -keyout $ca.key -out $ca.pem -subj "/CN=$ca" 2> told \
        || fail "openssl makes no CA: $(cat told)"
done
names=DNS:localhost,IP:127.0.0.1,IP:::1,IP:9.9.9.9
for name in geo six two rebind both loop loop6; do
    names=$names,DNS:$name.example
done
certificate good ca 30 "$names"
certificate unknown otherca 30 "$names"
certificate another ca 30 'DNS:another.test'

cat > hosts <<'END'
127.0.0.1 localhost loop.example
::1 loop6.example
9.9.9.9 geo.example both.example
9.9.9.9   rebind.example
127.0.0.1 both.example
9.9.9.11 two.example
9.9.9.9 two.example
2a0a::1 six.example
10.1.2.3 private.example
169.254.169.254 metadata.example
fd00::1 local.example
::ffff:127.0.0.1 mapped.example
2002:7f00:1:: sixtofour.example
64:ff9b::7f00:1 translated.example
END

cat > inside <<'END'
set -u
ip link set lo up
ip address add 9.9.9.9/32 dev lo
ip -6 address add 2a0a::1/128 dev lo
mount --bind hosts /etc/hosts
served() {
    /usr/bin/python3 -I "$server" "$@" & echo $! >> servers
}
for address in 9.9.9.9 127.0.0.1 2a0a::1 ::1; do
    served $address 443 good.pem good.key log "$PWD/hosts"
done
served 9.9.9.9 444 unknown.pem unknown.key log
served 9.9.9.9 445 another.pem another.key log
for try in {1..300}; do
    [ "$(ss -Htln | wc -l)" -ge 6 ] && break
    sleep 0.1
done
export CURL_CA_BUNDLE=$PWD/ca.pem
bash -u "$work/asks"
while read -r one; do kill "$one"; done < servers
END

cat > asks <<'END'
"$script" --fetch list --limit 2000000 --seconds 5 --at-once 40 \
    --contact noc@me.example 2> told.first
echo $? > status.first
cp list.index index.first
cp -r feeds feeds.first
mv log log.first; : > log
# Once more: what has a tag or a date is asked for with it; what was changed here meanwhile is not.
echo 192.0.2.0/24,DE > "$(sed -n 's/^https:..geo.example.altered //p' list)"
grep -e ' feeds/tagged$' -e /modified -e /altered list > again
cp list.index again.index
"$script" --fetch again 2> told.again
mv log log.again
"$script" --fetch denied --deny 9.9.9.0/24 2> told.denied
"$script" --fetch own --own-network 2> told.own
"$daily" --config daily.conf > told.day 2>&1; echo $? >> told.day
mv log log.day
"$daily" --config daily.conf > told.next 2>&1; echo $? >> told.next
END

# The table: URL, and `taken` or how the reason begins, with OWN for the words that follow below.
sed -n '/^# TABLE$/,${
    s/, OWN/, which is an address of the own network/
    s/^# \(https:[^ ]*\) \(.*\)$/\1 \2/p
}' "$table" > cases
awk '{ print $1, "feeds/" ($1 ~ /tagged$/ ? "tagged" : NR) }' cases > list
echo 'https://geo.example/ok feeds/denied' > denied
echo 'https://loop.example/ok feeds/own' > own
mkdir served
printf '192.0.2.0/24,CH\n' > served/tagged && cp served/tagged served/altered
{
    echo '2.3|nro|20240301|3|19830101|20240301|+0000'
    echo 'nro|CH|ipv4|192.0.2.0|256|20240301|allocated|a|e-stats'
    echo 'nro|AT|ipv6|2001:db8::|32|20240301|allocated|b|e-stats'
    echo 'nro|DE|ipv4|198.51.100.0|256|20240301|allocated|c|e-stats'
} > served/statistics
printf '%s\n' 'inetnum: 192.0.2.0 - 192.0.2.255' 'geofeed: https://geo.example/tagged' '' \
    'inetnum: 198.51.100.0/24' 'geofeed: https://loop.example/secret' \
    | gzip > served/dump.gz
printf '%s\n' 'folder = daily' 'least-records = 1' 'disk = 1m' \
    'statistics = https://geo.example/statistics' 'dump r = https://six.example/dump.gz' \
    > daily.conf
mkdir -p bin && ln -s "$program" bin/geofeed
export PATH=$work/bin:$PATH script daily server work
"${own[@]}" bash inside > printed 2>&1 || fail "the servers do not run: $(cat printed)"

# why URL: what the index says of it.
why() {
    /usr/bin/python3 -I -c 'import json, sys; print(json.load(open(sys.argv[1]))
        .get(sys.argv[2], {}).get("why", "taken"))' index.first "$1"
}
while read -r url wanted; do
    found=$(why "$url")
    case "$found" in "$wanted"*) ;; *) fail "$url comes to '$found', and not '$wanted'" ;; esac
    file=$(awk -v url="$url" '$1 == url { print $2 }' list)
    if [ "$wanted" = taken ]; then
        [ -s "feeds.first/${file#feeds/}" ] || fail "$url leaves no file"
    elif [ -e "feeds.first/${file#feeds/}" ]; then
        fail "$url leaves a file"
    fi
done < cases
[ "$(wc -l < cases)" -ge 50 ] && [ "$(cat status.first)" = 1 ] \
    || fail "the table has $(wc -l < cases) rows, the status is $(cat status.first)"
grep -E '^(127|::1)' log.first log.again > asked \
    && fail "an address of the own network is asked: $(cat asked)"
grep -q 'secret' log.again && fail "what is behind a redirect to this host is asked for"
[ -z "$(find . -name '*.new')" ] || fail "it leaves $(find . -name '*.new')"
grep -q "/tagged .*'If-None-Match: " log.again \
    && grep -q "/modified .*'If-Modified-Since: " log.again \
    || fail "it asks for all anew: $(cat log.again)"
grep -q "/altered .*'If-" log.again && fail "it asks on what was changed here: $(cat log.again)"
[ ! -s told.again ] || fail "of files that are as they were it says '$(cat told.again)'"
grep -q '9.9.9.9, which is an address of the own network (denied)' told.denied \
    || fail "--deny is not kept: $(cat told.denied)"
[ "$(cat feeds/own 2> /dev/null)" = '192.0.2.0/25,CH,CH-ZH,Zurich,' ] \
    || fail "--own-network takes it not: $(cat told.own)"
[ "$(cat told.day)" = 0 ] && [ "$(cat told.next)" = 0 ] \
    || fail "the daily run says '$(cat told.day told.next)'"
grep -q 'User-Agent: feeds-of-dump/.* (postmaster@' log.day \
    || fail "there is no contact: $(cat log.day)"
[ "$(grep -c "'If-None-Match: " log)" -eq 3 ] || fail "the next day asks for all anew: $(cat log)"
[ "$("$program" lookup daily/city.mmdb 192.0.2.1)" = '{"country":{"iso_code":"CH"}}' ] \
    || fail "the daily file is another"
grep -q '^https://loop.example/secret: loop.example is 127.0.0.1' daily/runs/000002/feeds.missing \
    || fail "it does not say what is missing"

verdict
exit
# TABLE
# https://geo.example/ok taken
# https://geo.example:443/ok?again taken
# https://geo.example/tagged taken
# https://geo.example/modified taken
# https://geo.example/altered taken
# https://six.example/ok taken
# https://two.example/ok taken
# https://9.9.9.9/ok taken
# https://geo.example/redirect/5 taken
# https://geo.example/redirect/6 more than 5 redirects
# https://geo.example/to/https://loop.example/secret loop.example is 127.0.0.1, OWN (loopback)
# https://geo.example/to/https://127.0.0.1/secret 127.0.0.1 is 127.0.0.1, OWN (loopback)
# https://geo.example/to/https://metadata.example/secret metadata.example is 169.254.169.254, OWN
# https://geo.example/to/http://geo.example/ok it is redirected to a URL that is not https
# https://geo.example/to/file:///etc/passwd it is redirected to a URL that is not https
# https://geo.example/to/https://[x/ it is redirected to a URL that is not https
# https://rebind.example/rebind rebind.example is 127.0.0.1, OWN (loopback)
# https://loop.example/secret loop.example is 127.0.0.1, OWN (loopback)
# https://loop6.example/secret loop6.example is ::1, OWN (loopback)
# https://both.example/secret both.example is 127.0.0.1, OWN (loopback)
# https://localhost/secret localhost is
# https://127.0.0.1/secret 127.0.0.1 is 127.0.0.1, which is
# https://2130706433/secret 2130706433 is 127.0.0.1, which is
# https://0x7f.1/secret 0x7f.1 is 127.0.0.1, which is
# https://0/secret 0 is 0.0.0.0, OWN (this host)
# https://[::1]/secret [::1] is ::1, OWN (loopback)
# https://[::ffff:127.0.0.1]/secret [::ffff:127.0.0.1] is ::ffff:127.0.0.1, OWN (loopback)
# https://private.example/ok private.example is 10.1.2.3, OWN (private)
# https://local.example/ok local.example is fd00::1, OWN (unique local)
# https://mapped.example/ok mapped.example is
# https://sixtofour.example/ok sixtofour.example is 2002:7f00:1::, OWN (loopback)
# https://translated.example/ok translated.example is 64:ff9b::7f00:1, OWN (loopback)
# https://224.0.0.1/ok 224.0.0.1 is 224.0.0.1, OWN (multicast)
# https://nowhere.example/ok the name nowhere.example is not resolved
# https://user@geo.example/ok the URL has no form that is fetched
# https://geo.example:99999/ok the URL has no form that is fetched
# https://geo.example:446/ok Failed to connect
# https://geo.example:444/ok SSL certificate problem
# https://geo.example:445/ok SSL: no alternative certificate subject name matches
# https://geo.example/endless it has more than 2000000 bytes
# https://geo.example/announced it has more than 2000000 bytes
# https://geo.example/slow Operation timed out
# https://geo.example/silent Operation timed out
# https://geo.example/heads the head of the answer is too long
# https://geo.example/cut transfer closed with
# https://geo.example/html a web page and no feed
# https://geo.example/empty no line of a feed is in it
# https://geo.example/status/404 the server answers with status 404
# https://geo.example/status/500 the server answers with status 500
# https://geo.example/status/206 the server answers with status 206
# https://geo.example/unasked the server answers with status 304
# https://geo.example/other Received HTTP/0.9 when not allowed
