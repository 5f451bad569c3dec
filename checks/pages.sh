#!/usr/bin/env bash
# The pages for users beside the guide, and the first screen of README.md: each page's blocks of
# commands are run in its order, and what they print has to be its blocks of text, byte for byte.
# `whois` is a stand-in; nginx, nft and ipset are the real ones where they are there, with the
# page's own configuration. And a picture of the guide is what it says and not too large.
set -u
cd "$(dirname "${BASH_SOURCE[0]}")/.." || exit 1
top=$PWD
. checks/with_program.bash
command -v python3 > /dev/null || skip "there is no python3 (Debian's python3)"
export PATH=$work/bin:$PATH:/usr/sbin:/sbin
mkdir bin
ln -s "$program" bin/geofeed
for tool in geofeed-set mmdb-list mmdb-map; do
    ln -s "$top/contrib/$tool" "bin/$tool"
done
trap 'for pid in "$work"/*/nginx.pid; do [ ! -s "$pid" ] || kill "$(cat "$pid")"; done
    rm -rf "$work"' EXIT

# RIPE's answer for an address of either family, as it comes.
cat > bin/whois <<'END'
#!/bin/sh
[ "$1 $2 $3 $4 $5" = '-h whois.ripe.net -r -T inetnum,inet6num' ] || exit 2
case $6 in
    *:*) printf '%s\n' "% Information related to '2001:db8:1::/48'" '' \
            'inet6num:       2001:db8:1::/48' ;;
    *) printf '%s\n' '% This is the RIPE Database query service.' \
            '% The objects are in RPSL format.' '' \
            "% Information related to '192.0.2.0 - 192.0.2.255'" '' \
            'inetnum:        192.0.2.0 - 192.0.2.255' ;;
esac
printf '%s\n' 'netname:        EXAMPLE-NET' 'country:        DE' \
    'geofeed:        https://geo.example.net/feed.csv' 'status:         ASSIGNED PA' \
    'last-modified:  2026-11-01T09:00:00Z' 'source:         RIPE # Filtered' '' \
    '% This query was served by the RIPE Database Query Service' ''
END
chmod +x bin/whois

# block TAG PAGE: the lines of the page's blocks of this tag, where `section` has the name of one of
# its sections in that.
block() {
    awk -v section="$section" '
        BEGIN { inside = section == "" }
        section != "" && /^## / { inside = $0 == "## " section }
        inside' "$top/$2" | sed -n "/^\`\`\`$1\$/,/^\`\`\`\$/p" | grep -v '^```'
}

# stands PAGE [SECTION]: a folder of its own with the examples, to run the commands of a page or of
# one section in; they are in the file `commands` there.
stands() {
    page=$1
    section=${2:-}
    here=$(basename "$page" .md)${section:+-${section// /-}}
    mkdir "$work/$here" && cd "$work/$here" || exit 1
    here=$PWD
    cp -r "$top/examples" .
    block sh "$page" | sed "s|/var/|$here/var/|g" > commands
    mkdir -p var/lib var/www/geo
    [ -s commands ] || fail "$page has no commands"
}

# prints [WRAPPER..]: the page's commands end well, and print its text.
prints() {
    "$@" bash -eu commands > printed 2> told \
        || fail "the commands of $page end with status $?: $(tail -n 3 told)"
    block text "$page" > wanted
    diff wanted printed > different \
        || fail "the commands of $page print something else: $(head -n 5 different)"
}

# serves HTTP-LINES: a real nginx with this in its http block; its socket is nginx.sock, and its
# folder the page's.
serves() {
    local module=/usr/lib/nginx/modules/ngx_http_geoip2_module.so
    {
        [ ! -f "$module" ] || echo "load_module $module;"
        [ "$(id -u)" -ne 0 ] || echo "user root;"
        echo "pid $here/nginx.pid; error_log $here/error.log; events {}"
        echo "http { access_log off;"
        for kind in client_body proxy fastcgi uwsgi scgi; do
            echo "${kind}_temp_path $here/temp;"
        done
        printf '%s\n}\n' "$1"
    } > nginx.conf
    nginx -e "$here/error.log" -p "$here" -c "$here/nginx.conf" 2> told \
        || fail "nginx refuses the configuration of $page: $(head -n 2 told)"
}

# Own feed: served by nginx with a certificate made here, where both are there.
stands docs/own-feed.md
if needs nginx nginx-light && needs openssl openssl && needs curl curl; then
    openssl req -x509 -newkey rsa:2048 -nodes -keyout key.pem -out cert.pem -days 2 \
        -subj /CN=geo.example.net -addext subjectAltName=DNS:geo.example.net 2> told \
        || fail "no certificate: $(cat told)"
    serves "server { listen unix:$here/nginx.sock ssl; server_name geo.example.net;
        ssl_certificate $here/cert.pem; ssl_certificate_key $here/key.pem;
        $(block nginx "$page" | sed "s|/var/|$here/var/|g") }"
    printf '#!/bin/sh\nexec %s --cacert %s --unix-socket %s "$@"\n' "$(command -v curl)" \
        "$here/cert.pem" "$here/nginx.sock" > "$work/bin/curl"
else
    printf '#!/bin/sh\ncp "%s/var/www/geo/feed.csv" "$3"\n' "$here" > "$work/bin/curl"
fi
chmod +x "$work/bin/curl"
prints
if [ -f nginx.pid ]; then
    curl -fsSI https://geo.example.net/feed.csv | tr -d '\r' \
        | grep -qix 'content-type: text/csv; charset=utf-8' \
        || fail "the feed is served as another type"
fi
# The step for CI fails by each of its reasons.
cd own || exit 1
cp feed.csv good.csv
for bad in '192.0.2.7/24,DE,,,' '198.51.100.0/24,DE,,,' ''; do
    echo "$bad" > feed.csv
    sh ci.sh > printed 2> told && fail "the step for CI takes a feed of '$bad'"
done
cp good.csv feed.csv
sh ci.sh > printed 2> told || fail "the step for CI refuses a good feed: $(cat printed told)"
(PATH=/usr/bin:/bin sh ci.sh) > printed 2> told && fail "the step for CI passes without the program"
rm objects && sh ci.sh > printed 2> told && fail "the step for CI passes where the program stops"

for page in explain check publish census not-in-the-sources; do
    stands "docs/$page.md"
    [ "$page" != census ] || needs bc bc || continue
    prints
done

stands docs/tools.md 'The file as a whole'
if /usr/bin/python3 -c 'import maxminddb.decoder' 2> /dev/null; then
    prints
    [ -s examples/realistic/map.html ] && [ -s examples/realistic/changes.html ] \
        || fail "there is no picture of $page"
else
    lacks 'maxminddb for Python' python3-maxminddb
fi

# Firewalls: in a network of its own, with the table of the page.
stands docs/tools.md Firewalls
block nft "$page" > table.nft
for asks in 'nft list tables' 'ipset list'; do
    word=${asks%% *}
    if ! unshare -n sh -c "$asks" > printed 2> told; then
        part "$word of $page (Debian's nftables and ipset, and a kernel that lets them):" \
            "$(tail -n 1 told)"
        sed -i "/^$word /d; s/ && nft -f geo.nft//" commands
        [ "$word" = ipset ] || : > table.nft
    fi
done
if unshare -n true 2> told; then
    [ ! -s table.nft ] || sed -i '1i nft -f table.nft' commands
    echo '[ ! -s table.nft ] || nft list table inet geo > loaded' >> commands
    prints unshare -n
    if [ -s table.nft ]; then
        grep -q '192.0.2.192/26' loaded && grep -q '2001:db8::/32' loaded \
            && grep -q 'saddr != @geo6 drop' loaded \
            || fail "the table of $page is '$(cat loaded)'"
    fi
else
    prints
fi

# Serving: a real nginx with the block of the page finds the country, and that of the next file
# without a reload.
stands docs/readers.md 'Into service'
printf 'x|DE|ipv4|192.0.2.0|256||allocated\n' > s.txt
printf 'epoch 1700000000\nstats x s.txt\nemit city.mmdb\n' > job
"$program" build job > printed || fail "the job for $page ends with status $?"
prints
if ! needs nginx nginx-light || ! needs curl curl; then
    :
elif [ ! -f /usr/lib/nginx/modules/ngx_http_geoip2_module.so ]; then
    lacks "module geoip2 of nginx" libnginx-mod-http-geoip2
else
    blocks=$(block nginx "$page" | sed "s|/var/|$here/var/|g; s|auto_reload 60m|auto_reload 1s|
        s|\(\$geo_[a-z]*\) default|\1 source=\$arg_ip default|")
    rm -f "$work/bin/curl"
    serves "$blocks
        server { listen unix:$here/nginx.sock; access_log $here/access.log geo;
            default_type text/plain;
            location / { return 200 \"\$geo_country \$geo_region \$geo_city\n\"; } }"
    asks() { curl -fsS --unix-socket "$here/nginx.sock" "http://geo/?ip=$1" 2>&1; }
    [ "$(asks 192.0.2.1)" = 'DE none none' ] && [ "$(asks 192.0.3.1)" = 'none none none' ] \
        || fail "nginx answers '$(asks 192.0.2.1)': $(cat error.log)"
    # nginx tells files apart by their times, in whole seconds.
    sleep 2
    echo '192.0.2.0/24,set,AT,AT-9,Wien' > own.csv
    sed -i 's/^emit/overrides own.csv\nemit/' job
    "$program" build job > printed || fail "the job for $page ends with status $?"
    prints
    sleep 2
    asks 192.0.2.1 > printed
    [ "$(asks 192.0.2.1)" = 'AT 9 Wien' ] \
        || fail "nginx does not see the next file: '$(asks 192.0.2.1)': $(cat error.log)"
    grep -q ' DE none "GET /?ip=192.0.2.1 HTTP/1.1" 200$' access.log \
        || fail "nginx logs '$(head -n 1 access.log)'"
fi

# The first screen of the README: commands behind a dollar sign, and what they print.
stands README.md
cd examples/realistic || exit 1
block console README.md > screen
grep -q '^\$ geofeed explain ' screen && grep -q '^\$ geofeed check ' screen \
    || fail "README.md shows no explain and check"
sed -n 's/^\$ //p' screen > commands
[ "$(grep -n -m 1 '^```console' "$top/README.md" | cut -d : -f 1)" -lt 40 ] \
    || fail "README.md shows explain and check too late"
while read -r command; do
    echo "\$ $command"
    bash -c "$command"
done < commands > printed 2>&1
diff screen printed > different \
    || fail "the README's commands print something else: $(head -n 5 different)"

# The scripts' manual pages have no errors of form, and say what the scripts say.
has_man=
! needs man man-db || has_man=yes
for tool in geofeed-set mmdb-list mmdb-map; do
    if [ -n "$has_man" ]; then
        told=$(MANWIDTH=80 man --warnings -l "$top/contrib/$tool.1" 2>&1 > /dev/null)
        [ -z "$told" ] || fail "contrib/$tool.1: $told"
    fi
    for option in $(grep -oE -- '--[a-z]+' "$top/contrib/$tool" | sort -u); do
        grep -qF -- "${option//-/\\-}" "$top/contrib/$tool.1" \
            || [ "$option" = --help ] || [ "$tool" = mmdb-map ] \
            || fail "contrib/$tool.1 does not name $option"
    done
done

# The picture.
[ "$(head -c 8 "$top/docs/map.png" | od -An -tx1 | tr -d ' \n')" = 89504e470d0a1a0a ] \
    && [ "$(wc -c < "$top/docs/map.png")" -lt 300000 ] \
    && grep -q '](map.png)' "$top/docs/guide.md" || fail "the guide's picture is none, or too large"

verdict
