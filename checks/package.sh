#!/usr/bin/env bash
# What ./package makes: the same bytes from two folders, no dead links, what lintian says, and the
# least glibc; and the package as somebody new uses it, without this repository: put over a former
# version, used, removed and purged, in a root that is this Debian without /usr/local, /home and the
# repository.
set -u
cd "$(dirname "${BASH_SOURCE[0]}")/.." || exit 1
top=$PWD
. checks/with_program.bash
for need in dpkg-deb:dpkg tar:tar strip:binutils /usr/bin/python3:python3 curl:curl; do
    command -v "${need%%:*}" > /dev/null || skip "there is no ${need%%:*} (Debian's ${need#*:})"
done
export SOURCE_DATE_EPOCH=1700000000 TZ=Asia/Tokyo
# Two folders of the repository, with other times of files and another mask.
for folder in one another/folder; do
    mkdir -p "$folder/crates/geofeed/out"
    cp -r "$top"/{install,package,geofeed.1,contrib,docs,examples} "$top"/*.md \
        "$top"/LICENSE* "$folder"
    cp "$program" "$folder/crates/geofeed/out/geofeed"
    (umask 0077 && [ "$folder" = one ] || umask 0002 && "$folder/package" "$folder/dist") \
        > printed 2>&1 || fail "it ends with status $?: $(cat printed)"
done
version=$("$program" --version | sed -n '1s/^geofeed \([0-9.]*\) .*/\1/p')
cd one/dist || exit 1
deb=$(echo geofeed_"$version"-1_*.deb) archive=$(echo geofeed-"$version"-linux-*.tar.gz)
[ -f "$deb" ] && [ -f "$archive" ] && [ "$(wc -l < SHA256SUMS)" -eq 2 ] || fail "it makes $(ls)"
sha256sum --quiet -c SHA256SUMS || fail "the sums are others"
for file in *; do
    cmp -s "$file" "$work/another/folder/dist/$file" || fail "$file is another in another folder"
done
cd "$work" || exit 1
dpkg-deb -x "one/dist/$deb" unpacked && mkdir archive \
    && tar -xzf "one/dist/$archive" -C archive --strip-components=1 \
    || fail "they cannot be unpacked"
[ -z "$(find unpacked archive -mindepth 1 ! -type l -newermt '@1700000000' -print -quit)" ] \
    || fail "a file has another time than the commit's"
for pages in unpacked/usr/share/doc/geofeed archive/share/doc/geofeed; do
    while IFS= read -r page; do
        while IFS= read -r target; do
            case "$target" in http://* | https://* | '#'*) continue ;; esac
            [ -e "$(dirname "$page")/${target%%#*}" ] \
                || fail "$page links to $target, which is not there"
        done < <(grep -oE '\]\([^) ]+\)' "$page" | sed -E 's/^\]\(//; s/\)$//')
    done < <(find $pages -name '*.md')
done
# The program runs with the named glibc: no symbol asks for a newer one, and the package depends on
# it.
least=$(grep -ao 'GLIBC_2\.[0-9.]*' archive/bin/geofeed | cut -d _ -f 2 | sort -V | tail -n 1)
dpkg-deb -f "one/dist/$deb" Depends | grep -qF "libc6 (>= $least)" \
    || fail "it does not depend on glibc $least"
grep -q "glibc $least or newer" printed || fail "it does not say that it needs glibc $least"
if needs lintian lintian; then
    lintian --fail-on error "one/dist/$deb" > printed 2>&1 || fail "lintian says: $(cat printed)"
fi
[ "$failed" -eq 0 ] || verdict
[ "$(id -u)" -eq 0 ] || skip "the package in a clean root, which needs root"

# A former version: without one of the tools, and with another configuration.
dpkg-deb -R "one/dist/$deb" former && rm former/usr/bin/geofeed-notes \
    && echo '# as it was' > former/etc/geofeed/daily.conf
sed -i 's/^Version: .*/Version: 0.1.0-1/' former/DEBIAN/control \
    && sed -i '/geofeed-notes$/d' former/DEBIAN/md5sums
dpkg-deb --root-owner-group -b former former.deb > /dev/null || fail "no former version is made"

cat > in_root <<'END'
set -eu
export PATH=/usr/sbin:/usr/bin:/sbin:/bin DEBIAN_FRONTEND=noninteractive HOME=/nonexistent
cd /opt/new
step() { echo "in the clean root, $*"; }
step "no geofeed is there"; ! command -v geofeed && [ ! -e /etc/geofeed ] && [ ! -e /var/lib/geo ]
step "the former version"; dpkg -i former.deb > said 2>&1 || { cat said; exit 1; }
echo 'least-records = 2' >> /etc/geofeed/daily.conf
step "upgraded"; dpkg --force-confold -i new.deb > said 2>&1 || { cat said; exit 1; }
geofeed --version | grep -qF "geofeed $1 "; command -v geofeed-notes > /dev/null
grep -q '^least-records = 2' /etc/geofeed/daily.conf
dpkg -V geofeed | grep -v ' c /etc/geofeed/daily.conf' && exit 1
step "the first example"; cp -r /usr/share/doc/geofeed/examples/first . && cd first
[ "$(geofeed build job | tail -n 1)" = 'emit first.mmdb nodes 226 data 85 bits 24 bytes 1660' ]
[ "$(geofeed lookup first.mmdb 192.0.2.130)" = '{"country":{"iso_code":"AT"}}' ]
cd ..
for page in geofeed geofeed-daily feeds-of-dump geofeed-notes; do
    [ -f /usr/share/man/man1/$page.1.gz ]
done
step "the daily run as root is refused"; geofeed-daily > said 2>&1 && exit 1
grep -q 'is of the user _geofeed: run it as that user, by runuser -u _geofeed -- geofeed-daily' said
step "the daily run as its user"
printf '%s\n' 'statistics = https://x.example/statistics' 'dump d = https://x.example/dump' \
    'disk = 1m' >> /etc/geofeed/daily.conf
export FETCH=/opt/new/fetch
runuser -u _geofeed -- geofeed-daily --fetch
# As the unit does: without a network.
unshare --net runuser -u _geofeed -- geofeed-daily --build
[ "$(cd /var/lib/geo && geofeed lookup city.mmdb 192.0.2.1)" = '{"country":{"iso_code":"CH"}}' ]
[ "$(stat -c '%U %a' /var/lib/geo/city.mmdb)" = '_geofeed 644' ]
runuser -u nobody -- test -r /var/lib/geo/city.mmdb
step "removed"; dpkg -r geofeed > said 2>&1 || { cat said; exit 1; }
! command -v geofeed \
    && [ -z "$(find /usr /lib -name '*geofeed*' -newer /opt/new/began 2> /dev/null)" ]
[ -f /etc/geofeed/daily.conf ] && [ -f /var/lib/geo/city.mmdb ]
step "purged"; dpkg -P geofeed > said 2>&1 || { cat said; exit 1; }
[ ! -e /etc/geofeed ] && [ ! -e /var/lib/geo ]
step "the archive"; tar -xzf archive.tar.gz -C /usr/local --strip-components=1
cd first && env -i /usr/local/bin/geofeed build job | tail -n 1 | grep -q '^emit first.mmdb '
/usr/local/bin/geofeed-daily --help | grep -q '^usage:'
grep -q '^ExecStart=/usr/local/bin/geofeed-daily --build' \
    /usr/local/lib/systemd/system/geofeed-daily.service
step "all is done"
END
cat > outside <<'END'
set -eu
mkdir -p layer root
mount -t tmpfs -o mode=755 none layer
mkdir layer/upper layer/work
mount -t overlay overlay -o "lowerdir=/,upperdir=$PWD/layer/upper,workdir=$PWD/layer/work" root
for folder in usr/local home root opt tmp "${top#/}"; do
    mkdir -p "root/$folder" && mount -t tmpfs -o mode=755 none "root/$folder"
done
mount --bind /dev root/dev && mount -t proc proc root/proc
mkdir root/opt/new
cp former.deb in_root root/opt/new && cp "one/dist/$deb" root/opt/new/new.deb \
    && cp "one/dist/$archive" root/opt/new/archive.tar.gz
printf '%s\n' '2|nro|2024|2|1983|2024|+0000' 'nro|CH|ipv4|192.0.2.0|256|20240301|allocated|a' \
    'nro|AT|ipv6|2001:db8::|32|2024|allocated|b' > root/opt/new/statistics
printf 'inetnum: 192.0.2.0/24\ngeofeed: https://x.example/none\n' > root/opt/new/dump
printf '#!/bin/sh\ncp "/opt/new/${2##*/}" "$1"\n' > root/opt/new/fetch \
    && chmod 755 root/opt/new/fetch root/opt/new
touch root/opt/new/began
chroot root /bin/bash /opt/new/in_root "$version"
END
export top deb archive version
if ! unshare --mount mount -t tmpfs none one 2> told; then
    skip "the package in a clean root: nothing can be mounted here: $(cat told)"
fi
unshare --mount --pid --fork bash outside > printed 2>&1
[ "$(tail -n 1 printed)" = 'in the clean root, all is done' ] || fail "$(tail -n 20 printed)"

verdict
