#!/usr/bin/env bash
# The script `install`, into folders of its own: what it puts where, that the installed program runs
# far from the repository, that its pages have no dead links, that bash completes its words, and
# that `--remove` leaves nothing behind.
set -u
cd "$(dirname "${BASH_SOURCE[0]}")/.." || exit 1
top=$PWD
. checks/with_program.bash

"$top/install" "$work/usr" > printed 2>&1 || fail "it ends with status $?: $(cat printed)"
for file in bin/geofeed bin/feeds-of-dump bin/geofeed-daily bin/geofeed-notes bin/geofeed-set \
    bin/mmdb-list bin/mmdb-map share/man/man1/mmdb-map.1 share/doc/geofeed/docs/map.png \
    share/man/man1/geofeed.1 share/man/man1/geofeed-daily.1 \
    share/bash-completion/completions/geofeed lib/systemd/system/geofeed-daily.timer \
    lib/sysusers.d/geofeed.conf share/doc/geofeed/examples/daily.conf \
    share/doc/geofeed/README.md share/doc/geofeed/docs/stops.md \
    share/doc/geofeed/examples/first/job \
    share/doc/geofeed/examples/realistic/expected/printed; do
    [ -f "usr/$file" ] || fail "it does not put $file"
done

grep -q "^ExecStart=$work/usr/bin/geofeed-daily --build$" \
    usr/lib/systemd/system/geofeed-daily.service \
    || fail "the unit starts another file"
while IFS=: read -r page target; do
    case "$target" in http://* | https://* | '#'*) continue ;; esac
    [ -e "$(dirname "$page")/${target%%#*}" ] || fail "$page links to $target, which is not there"
done < <(grep -roE --include='*.md' '\]\([^) ]+\)' usr/share/doc | sed -E 's/:\]\(/:/; s/\)$//')
grep -q '\](docs/stops.md)' usr/share/doc/geofeed/README.md \
    && grep -q 'https://ftp.ripe.net' usr/share/doc/geofeed/README.md \
    || fail "a link that leads somewhere is gone"

cp -r usr/share/doc/geofeed/examples/first first && cd first || exit 1
printed=$(env -i PATH=/nowhere ../usr/bin/geofeed build job) \
    || fail "the installed program ends with status $?: $printed"
[ "${printed##*$'\n'}" = 'emit first.mmdb nodes 226 data 85 bits 24 bytes 1660' ] \
    || fail "the first job prints '$printed'"
cd ..

# completes WORDS WANTED: what bash offers for the last of the words.
completes() {
    local offered
    offered=$(bash --norc --noprofile -c '
        . usr/share/bash-completion/completions/geofeed
        compopt() { :; }
        read -ra COMP_WORDS <<< "$1"
        [ "${1% }" = "$1" ] || COMP_WORDS+=("")
        COMP_CWORD=$((${#COMP_WORDS[@]} - 1))
        _geofeed
        printf "%s\n" "${COMPREPLY[@]}" | sort | paste -sd" "' bash "$1")
    [ "$offered" = "$2" ] || fail "'$1' is completed by '$offered', and not '$2'"
}
: > 'with blank' && mkdir jobs && : > jobs/daily && : > job
completes 'geofeed ' '--help --version -V -h build census check explain gen lookup publish'
completes 'geofeed bu' 'build'
completes 'geofeed build jo' 'job jobs'
completes 'geofeed build jobs/' 'jobs/daily'
completes 'geofeed lookup w' ''
completes 'geofeed build ../' ''
completes 'geofeed build job ' ''
completes 'geofeed census jo' 'job jobs'
completes 'geofeed gen jo' ''
completes 'geofeed gen 7 jobs/' 'jobs/daily'
completes 'geofeed publish job 192.0.2.0/24 jo' 'job jobs'

"$top/install" --remove "$work/usr" > printed 2>&1 \
    || fail "--remove ends with status $?: $(cat printed)"
left=$(find usr ! -type d)
[ -z "$left" ] || fail "--remove leaves $left"
DESTDIR=$work/package "$top/install" > printed 2>&1 \
    || fail "with DESTDIR it ends with status $?: $(cat printed)"
[ -x package/usr/local/bin/geofeed ] || fail "DESTDIR is not kept"
grep -q '^ExecStart=/usr/local/bin/geofeed-daily --fetch$' \
    package/usr/local/lib/systemd/system/geofeed-fetch.service \
    || fail "with DESTDIR the unit starts another file"
"$top/install" --remove /nonexistent > printed 2>&1
[ $? -eq 1 ] && [ "$(cat printed)" = 'geofeed is not installed in /nonexistent' ] \
    || fail "--remove of what is not there says '$(cat printed)'"
for words in '--help' 'one two' '--remove one two'; do
    # shellcheck disable=SC2086
    "$top/install" $words > printed 2>&1
    [ $? -eq 2 ] && grep -q '^usage: ' printed || fail "'$words' ends otherwise: $(cat printed)"
done

verdict
