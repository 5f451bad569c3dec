#!/usr/bin/env bash
# geofeed-daily on made days, by the tables of checks/daily/days.py: over thirty days in a row with
# one fault each, what a person does about a refusal, two runs at once, runs that are killed at each
# command and at calls of the system, and a disk that is full at each write. And the crontab line of
# its manual under cron's environment, and systemd's view of the units. ALL=1 tries each call and
# each page of the disk, and not one in five.
set -u
cd "$(dirname "${BASH_SOURCE[0]}")/.." || exit 1
top=$PWD
# shellcheck disable=SC2034
in_memory=1500000
. checks/with_program.bash
for need in /usr/bin/python3:python3 strace:strace unshare:util-linux sync:coreutils; do
    command -v "${need%%:*}" > /dev/null || skip "there is no ${need%%:*} (Debian's ${need#*:})"
done

days=(/usr/bin/python3 -I "$top/checks/daily/days.py" "$top/contrib" "$program" "${ALL:+ALL}")
own=(unshare --mount)
[ "$(id -u)" -eq 0 ] || own=(unshare --user --map-root-user --mount)
mkdir mounted
if "${own[@]}" mount -t tmpfs none mounted 2> told; then
    "${own[@]}" "${days[@]}" mounts > printed 2>&1 || fail "$(cat printed)"
else
    part "full disks, since nothing can be mounted here: $(cat told)"
    "${days[@]}" > printed 2>&1 || fail "$(cat printed)"
fi

# Installed below a folder of its own, started by the manual's line as cron starts it.
"$top/install" "$work/usr" > printed 2>&1 || fail "it is not installed: $(cat printed)"
mkdir -p home/geo net
{
    echo '2|nro|2024|2|1983|2024|+0000'
    echo 'nro|CH|ipv4|192.0.2.0|256|20240301|allocated|a'
    echo 'nro|AT|ipv6|2001:db8::|32|20240301|allocated|b'
} > net/statistics
printf 'inetnum: 192.0.2.0/24\ngeofeed: https://x.example/none\n' > net/dump
printf '#!/bin/sh\ncp "%s/net/${2##*/}" "$1"\n' "$work" > fetch && chmod +x fetch
printf '%s\n' 'statistics = https://x.example/statistics' 'dump d = https://x.example/dump' \
    'least-records = 2' 'disk = 1m' > home/geo/daily.conf
line=$(sed -n 's/^23 4 \* \* \* //p' "$top/contrib/geofeed-daily.1" | tr -d '\\')
[ -n "$line" ] || fail "the manual has no line for crontab"
env -i HOME="$work/home" LOGNAME=me SHELL=/bin/sh PATH=/usr/bin:/bin FETCH="$work/fetch" \
    /bin/sh -c "${line//\/usr\/local\/bin/$work/usr/bin}" > printed 2>&1 \
    || fail "under cron it says '$(cat printed)'"
[ ! -s printed ] \
    && [ "$("$program" lookup home/geo/city.mmdb 192.0.2.1)" = '{"country":{"iso_code":"CH"}}' ] \
    || fail "under cron it makes another file, and says '$(cat printed)'"

if needs systemd-analyze systemd; then
    told=$(systemd-analyze verify --man=no usr/lib/systemd/system/geofeed-* 2>&1 | grep geofeed)
    [ -z "$told" ] || fail "systemd says of the units: $told"
fi
grep -q '^PrivateNetwork=yes' "$top/contrib/systemd/geofeed-daily.service" \
    || fail "the unit that builds has a network"

verdict
