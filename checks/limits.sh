#!/usr/bin/env bash
# A statistics file of the limit's 268,435,456 bytes is read, and one of a byte more is refused; so
# is a file of a byte more than 1,073,741,824 that is looked up in. A dump of 2,097,152 references
# is read, and one of one more is refused and read no further. The files are sparse.
set -u
cd "$(dirname "${BASH_SOURCE[0]}")/.." || exit 1
. checks/with_program.bash
printf 'epoch 1700000000\nstats x s.txt\nemit out.mmdb\n' > job
available=$(sed -n 's/^MemAvailable: *\([0-9]*\) kB$/\1/p' /proc/meminfo)

# ends BYTES STATUS LINE KB WORD..: with a file of so many bytes the program, run with these words,
# ends so; it may want so much memory.
ends() {
    local bytes=$1 printed status
    printf 'x|DE|ipv4|192.0.2.0|256||allocated\n' > s.txt
    truncate -s "$bytes" s.txt || exit 1
    printed=$("$program" "${@:5}")
    status=$?
    if [ "$status" -eq 1 ] && [ "${available:-0}" -lt "$4" ]; then
        part "$bytes bytes: ${available:-no} KB of memory are available, fewer than $4"
    elif [ "$status" -ne "$2" ] || [ "$printed" != "$3" ]; then
        fail "$bytes bytes end with status $status and '$printed', and not with $2 and '$3'"
    fi
}

ends 268435457 7 'stop source 2 bytes' 1500000 build job
ends 268435456 0 'emit out.mmdb nodes 147 data 22 bits 24 bytes 1123' 1500000 build job
ends 1073741825 7 'stop source 0 bytes' 4500000 lookup s.txt 192.0.2.1

# reads STATUS LINE SAID: the job ends so, and says this; the seconds end what reads on.
reads() {
    local printed ended
    printed=$(ulimit -t 60 && exec timeout 600 "${@:4}" "$program" build job 2> told)
    ended=$?
    [ "$ended" -eq "$1" ] && [ "$printed" = "$2" ] && [ "$(cat told)" = "$3" ] \
        || fail "$(stat -c %s refs.db) bytes of references end with status $ended and" \
            "'$printed', say '$(cat told)', and not $1, '$2' and '$3'"
}

# Behind the references the second file goes on up to the limit of bytes, with blocks that are not
# there.
object=$'inetnum: 192.0.2.0/24\ngeofeed: https://a.example/\n'
yes "$object" | head -n $((3 * 2097152)) > refs.db
printf 'epoch 1700000000\nrpsl x refs.db\n' > job
reads 0 '' ''
printf '%s\n' "$object" >> refs.db
last=$(stat -c %s refs.db)
many='job:2: the file "refs.db" has more than 2,097,152 references'
truncate -s 1099511627776 refs.db || exit 1
reads 7 'stop source 2 statements' "$many"
if ! needs strace strace; then
    :
elif strace -o trace true 2> told; then
    reads 7 'stop source 2 statements' "$many" \
        strace -y -s 0 -o trace -e trace=read,pread64,readv,preadv
    given=$(awk '/\/refs\.db>/ && $NF > 0 { given += $NF } END { print given + 0 }' trace)
    [ "$given" -ge "$last" ] && [ "$given" -le $((last + 65536)) ] \
        || fail "of $last bytes with one reference too many $given are read"
else
    part "how far a dump is read: strace may not trace here"
fi

verdict
