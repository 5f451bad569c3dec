#!/usr/bin/env bash
# Feeds and files of overrides at their limits: 67,108,864 bytes are read and a byte more is
# refused, 2,097,152 lines that pass are read and one more is refused. What was read is told by the
# notes of a report, and by a census of the addresses.
set -u
cd "$(dirname "${BASH_SOURCE[0]}")/.." || exit 1
. checks/with_program.bash
available=$(sed -n 's/^MemAvailable: *\([0-9]*\) kB$/\1/p' /proc/meminfo)
[ "${available:-0}" -ge 1500000 ] \
    || skip "${available:-no} KB of memory are available, fewer than 1500000"

# ends STATUS PRINTED COMMAND: the command ends so over the job, and prints what this pattern fits.
ends() {
    local printed status
    printed=$("$program" "$3" job 2> told)
    status=$?
    [[ "$status $printed" == "$1 "$2 ]] \
        || fail "$kind: $3 ends with status $status and '$printed', and not with $1 and '$2'"
}

# reads ADDRESSES: the file is read without a note, and so many IPv4 addresses have the country of
# its lines. (Those of IPv6 that carry them have it too.)
reads() {
    ends 0 'notes 0' build
    ends 0 "DE $1 *"$'\n''countries 1' census
}

# The dump has a reference to the feed for all IPv4 addresses.
printf '%s\n' 'inetnum: 0.0.0.0 - 255.255.255.255' 'geofeed: https://made.example/feed.csv' \
    'source: MADE' > dump.db

# The file is one line that passes and a long comment, and then as many lines that pass as there may
# be.
for kind in feed overrides; do
    if [ "$kind" = feed ]; then
        says=DE number=3
        printf '%s\n' 'epoch 1700000000' 'rpsl made dump.db' \
            'feed https://made.example/feed.csv file' report > job
    else
        says=set,DE number=2
        printf 'epoch 1700000000\noverrides file\nreport\n' > job
    fi
    printf '192.0.2.0/24,%s\n#' "$says" > file
    truncate -s 67108864 file || exit 1
    reads 256
    truncate -s 67108865 file || exit 1
    ends 7 "stop source $number bytes" build
    awk -v says="$says" 'BEGIN {
        for (n = 0; n < 2097152; n++)
            printf "10.%d.%d.%d,%s\n", n / 65536, n / 256 % 256, n % 256, says }' > file
    reads 2097152
    printf '192.0.2.0/24,%s\n' "$says" >> file
    ends 7 "stop source $number statements" build
done

verdict
