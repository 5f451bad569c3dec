# For the checks that run the program, read by them at the top of the repository. `rt ci` leaves the
# program in crates/geofeed/out. Where it is missing the check fails: nothing is built here, since a
# first build takes many minutes.
# Gives `program`, a folder of its own to stand in, and what checks/words.bash gives. Of a check
# that writes very many files `in_memory` says how many KiB they take at most: the folder is in
# memory where there is so much room, since a disk is asked to keep each.
# shellcheck shell=bash
. checks/words.bash
program=$PWD/crates/geofeed/out/geofeed

if [ ! -x "$program" ]; then
    fail "$program is not built"
    exit 1
fi
if [ -n "${in_memory:-}" ] && [ -w /dev/shm ]; then
    room=$(df -k --output=avail /dev/shm 2> /dev/null | tail -n 1)
    [ "${room:-0}" -lt "$in_memory" ] || export TMPDIR=/dev/shm
fi
work=$(mktemp -d) || exit 1
trap 'rm -rf "$work"' EXIT
cd "$work" || exit 1
