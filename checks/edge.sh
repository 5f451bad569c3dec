#!/usr/bin/env bash
# The real folder and the real output: what no contract sees. What a put keeps and what not, that
# reads are of what was put last, what stands in a put's way, what a run that is killed leaves
# behind, pipes, an output that takes nothing more, and the limit of file size. docs/outside.md says
# each of these in words. The program has no tests beside these.
set -u
cd "$(dirname "${BASH_SOURCE[0]}")/.." || exit 1
. checks/with_program.bash
umask 022
ulimit -c 0

# puts STATUS LINE [JOB]: the job ends so, and the last line on standard output begins so.
puts() {
    local printed last
    printed=$(timeout 60 "$program" build "${3:-job}" 2> told)
    status=$?
    last=${printed##*$'\n'}
    [ "$status" -eq "$1" ] && [[ "$last" == "$2"* ]] \
        || fail "${BASH_LINENO[0]}: ends with status $status and '$printed'," \
            "and not with $1 and '$2'; said: $(cat told)"
    [ "$1" -ne 0 ] || [ ! -s told ] \
        || fail "${BASH_LINENO[0]}: said '$(cat told)' where all was done"
}

# told TEXT: the one line on standard error has this text.
told() {
    [ "$(wc -l < told)" -eq 1 ] && grep -q -- "$1" told \
        || fail "${BASH_LINENO[0]}: said '$(cat told)', and not '$1'"
}

# has_mode MODE FILE
has_mode() {
    local mode
    mode=$(stat -c %a "$2")
    [ "$mode" = "$1" ] || fail "${BASH_LINENO[0]}: $2 has mode $mode, and not $1"
}

# left N [FOLDER]: so many files are left behind.
left() {
    local many
    many=$(find "${2:-.}" -maxdepth 1 -name '.geofeed new *' | wc -l)
    [ "$many" -eq "$1" ] || fail "${BASH_LINENO[0]}: $many new files are left behind, and not $1"
}

# is_whole FILE: one of the two files that the two sources make.
is_whole() {
    cmp -s "$1" first || cmp -s "$1" second \
        || fail "${BASH_LINENO[0]}: $1 is neither of the two files"
}

# job FILE [SOURCE]: a job on standard output.
job() { printf 'epoch 1700000000\nstats x %s\nemit %s\n' "${2:-s.txt}" "$1"; }

# many LINES TURN: statistics of so many IPv4 blocks side by side, whose countries follow no
# pattern.
many() {
    awk -v lines="$1" -v turn="$2" 'BEGIN {
        for (n = 0; n < lines; n++)
            printf "x|%c%c|ipv4|10.%d.%d.0|256||allocated\n", 65 + int(n * n / 13 + turn) % 25,
                65 + int(n * n / 101) % 25, n / 256, n % 256 }'
}

printf 'x|DE|ipv4|192.0.2.0|256||allocated\n' > s.txt
printf 'x|AT|ipv4|198.51.100.0|512||allocated\nx|CH|ipv6|2001:db8::|32||allocated\n' > t.txt
job first > job && puts 0 'emit first'
job second t.txt > job && puts 0 'emit second'
job out.mmdb > job
job out.mmdb t.txt > other

# Modes: of the umask, and then the old file's, without what lets it run as its owner or group.
(umask 027 && "$program" build job > printed)
has_mode 640 out.mmdb
for mode in 600 640 4755 2640 1644 444 0; do
    chmod "$mode" out.mmdb
    puts 0 'emit out.mmdb'
    has_mode "$(printf %o $((0$mode & 0777)))" out.mmdb
done
rm -f out.mmdb

# Reads are of what was put last, in pieces of 65,536 bytes: of two sources that the same run put
# files in the place of, and of a file that is looked up in each time it was emitted anew.
many 14000 0 > m.txt && many 13000 1 > n.txt && cp m.txt f && cp n.txt g
printf '%s\n' 'epoch 1700000000' 'stats x f' 'emit f' 'stats y g' 'emit g' \
    'stats x f' 'stats y g' report 'emit h' > both
printf '%s\n' 'epoch 1700000000' 'stats x f' 'stats y g' report 'emit i' > anew
"$program" build both 2> told | grep -v '^emit' > before
"$program" build anew 2> told | grep -v '^emit' > behind
[ "$(wc -c < f)" -gt 65536 ] && grep -q '^stats x 2 S' before \
    && grep -q '^stats y 2 S' before && cmp before behind && cmp h i \
    || fail "a run reads otherwise what it put itself"
for source in m n m; do
    job out.mmdb "$source.txt" > bad && puts 0 'emit out.mmdb' bad
    for at in 0 6543 12999; do
        wanted='{"country":{"iso_code":"'$(sed -nE "$((at + 1))s/^x.(..).*/\1/p" "$source.txt")'"}}'
        found=$("$program" lookup out.mmdb "10.$((at / 256)).$((at % 256)).255" 2>&1)
        [ "$found" = "$wanted" ] || fail "line $((at + 1)) of $source.txt is $found and not $wanted"
    done
done
rm -f f g h i out.mmdb

# A second reading is of the file that has the name by then. Between two lines that set one source
# the run waits at a pipe for who reads its report, which has more bytes than the pipe takes; so
# when the first of it is read, the first file was read, and the second one is not yet.
mkfifo slow
while IFS='|' read -r line wrong; do
    yes "$wrong" | head -n 9000 | tr '\\' '\n' > f
    : > g
    printf '%s\n' 'epoch 1700000000' "$line" report "$line" report > twice
    timeout 60 "$program" build twice > slow 2> told &
    writer=$!
    exec 5< slow
    read -r -u 5 note
    mv g f
    last=$(tail -n 1 <&5)
    exec 5<&-
    wait "$writer" && [ -n "$note" ] && [ "$last" = 'notes 0' ] \
        || fail "a second '$line' is not of the file of that time: $note, and then $last"
done << 'END'
stats x f|here
overrides f|here
feed https://h.example/ f|here
rpsl x f|inetnum: here\geofeed: https://h.example/\
END
rm -f f slow

# Links: a put takes the place of the last name, and follows the others; a read follows all.
mkdir below && ln -s below linked && echo secret > kept && chmod 600 kept
ln -s ../kept below/out.mmdb
ln -s s.txt source && job linked/out.mmdb source > links && puts 0 'emit linked/out.mmdb' links
[ ! -L below/out.mmdb ] && is_whole below/out.mmdb
has_mode 644 below/out.mmdb
[ "$(cat kept)" = secret ] || fail "the file that a link leads to was written"
puts 0 'emit out.mmdb' other
ln out.mmdb hard
puts 0 'emit out.mmdb'
cmp -s hard second && cmp -s out.mmdb first || fail "a put over a hard link is wrong"
ln -sf round round && job out.mmdb round > bad
puts 3 'stop read round' bad && told 'symbolic links'
job round > loop && puts 0 'emit round' loop
ln -sfn ring ring && job ring/out.mmdb > bad && puts 5 'stop write ring/out.mmdb' bad

# What stands in the way: a folder of the name, a missing folder, a file in a folder's place.
mkdir full full/out.mmdb && job full/out.mmdb > bad
puts 5 'stop write full/out.mmdb' bad && told 'a folder has this name'
left 0 full
job none/out.mmdb > bad && puts 5 'stop write none/out.mmdb' bad && told 'there is no folder "none"'
{ job out.mmdb t.txt && echo 'emit none/out.mmdb' && echo 'emit out.mmdb'; } > bad
puts 5 'stop write none/out.mmdb' bad
cmp -s out.mmdb second && [ ! -e none ] || fail "a put that stops spoils what was put before it"
job s.txt/out.mmdb > bad && puts 5 'stop write s.txt/out.mmdb' bad && told 'Not a directory'

# New files that were left behind: one, a hundred of them, and one that another run still holds.
echo half > '.geofeed new 0' && job new.mmdb > bad && puts 0 'emit new.mmdb' bad
is_whole new.mmdb
left 0
for ((n = 0; n < 100; n++)); do echo half > ".geofeed new $n"; done
puts 0 'emit out.mmdb'
left 99
[ ! -e '.geofeed new 0' ] || fail "a new file that was left behind was not taken over"
if needs flock util-linux; then
    echo theirs > '.geofeed new 0'
    flock '.geofeed new 0' "$program" build other > printed \
        || fail "a held new file stops a put: $(cat printed)"
    [ "$(cat '.geofeed new 0')" = theirs ] \
        || fail "a new file that another run holds was taken over"
    [ ! -e '.geofeed new 1' ] || fail "the next new file was not taken over"
    is_whole out.mmdb
fi
rm -f .geofeed\ new\ *
for ((n = 0; n < 100; n++)); do mkdir ".geofeed new $n"; done
puts 5 'stop write out.mmdb' && told '.geofeed new 0. to .99.'
rmdir .geofeed\ new\ *

# Pipes: never waited for, as a job, as a source, and in the place of what is written.
mkfifo pipe
puts 3 'stop read pipe' pipe && told 'not a regular file'
job out.mmdb pipe > bad && puts 3 'stop read pipe' bad
timeout 60 "$program" lookup pipe 192.0.2.1 > printed 2> told
[ $? -eq 3 ] || fail "a lookup in a pipe ends otherwise: $(cat printed)"
job pipe > bad && puts 0 'emit pipe' bad && is_whole pipe

# The limit of file size: of a put, and of standard output where that is a file.
cp first out.mmdb
for limit in 0 1; do
    [ "$limit" -eq 0 ] \
        || for n in {1..255}; do echo "x|DE|ipv4|10.0.$n.$n|1||allocated"; done > t.txt
    printed=$(ulimit -f "$limit"
        "$program" build other 2> /dev/full | cat
        exit "${PIPESTATUS[0]}")
    status=$?
    [ "$status $printed" = '5 stop write out.mmdb' ] \
        || fail "a limit of $limit blocks ends with $status and '$printed'"
    cmp -s out.mmdb first || fail "a limit of $limit blocks spoils the file"
done
left 0
# To the byte: a file of as many bytes as may be is put, and none of a byte more.
if needs prlimit util-linux; then
    printf 'x|AT|ipv4|198.51.100.0|512||allocated\nx|CH|ipv6|2001:db8::|32||allocated\n' > t.txt
    size=$(wc -c < second)
    for more in 1 0 -1; do
        cp first out.mmdb
        prlimit --fsize=$((size + more)) "$program" build other > printed 2> told
        status=$?
        if [ "$more" -ge 0 ]; then
            [ "$status" -eq 0 ] && cmp -s out.mmdb second
        else
            [ "$status" -eq 5 ] && told 'file too large' && cmp -s out.mmdb first
        fi || fail "$size bytes under a limit of $((size + more)) end with $status: $(cat told)"
    done
fi
left 0
: > printed
(ulimit -f 0 && exec "$program" --help >> printed)
[ $? -eq 5 ] || fail "standard output past the limit of file size ends otherwise"
printf 'x|AT|ipv4|198.51.100.0|512||allocated\nx|CH|ipv6|2001:db8::|32||allocated\n' > t.txt

# Standard output that takes nothing more.
if [ -c /dev/full ]; then
    "$program" build job > /dev/full 2> told
    [ $? -eq 5 ] && told 'standard output could not be written: No space left' && is_whole out.mmdb
    "$program" bulid > /dev/full 2> told
    [ $? -eq 5 ] && told 'standard output could not be written: No space left'
    job none/out.mmdb > bad && "$program" build bad > /dev/full 2> told
    [ $? -eq 5 ] && told '"none/out.mmdb" could not be written' \
        || fail "a stop line that is not written is not said either"
fi

# Standard output, standard error or standard input that is not open at all. What the program opens
# then has their numbers, and is no place for what it prints.
cp second out.mmdb
"$program" build job >&- 2> told
[ $? -eq 5 ] && told 'standard output could not be written: Bad file descriptor'
is_whole out.mmdb
cmp -s out.mmdb first || fail "a put without standard output is lost"
"$program" lookup out.mmdb 192.0.2.1 >&- 2> told
[ $? -eq 5 ] && told 'standard output could not be written: Bad file descriptor'
"$program" build none >&- 2>&-
[ $? -eq 4 ] || fail "a stop that can be told nowhere ends otherwise"
"$program" build job > printed 2>&- <&-
[ $? -eq 0 ] && grep -q '^emit out.mmdb ' printed \
    || fail "a put without standard error ends otherwise"
"$program" build none > printed 2>&-
[ "$? $(cat printed)" = '4 stop missing none' ] \
    || fail "a stop without standard error ends otherwise"
left 0

# A pipe that is closed: before anything is written, and when it took the first bytes of many notes.
# The signal that comes with it ends nothing, whether the program is begun with it ignored or not.
mkfifo shut
for how in - ''; do
    trap "$how" PIPE
    { read -r < shut; "$program" build job 2> told; echo $? > ended; } | { exec 0<&-; echo > shut; }
    [ "$(cat ended)" -eq 5 ] && told 'standard output could not be written: Broken pipe' \
        || fail "a closed pipe ends with $(cat ended)"
    is_whole out.mmdb
done
trap - PIPE
cp s.txt notes.txt
for ((n = 0; n < 9000; n++)); do echo 'x|DE|ipv4|here|256||allocated'; done >> notes.txt
printf 'epoch 1700000000\nstats x notes.txt\nreport\n' > bad
{ "$program" build bad 2> told; echo $? > ended; } | head -c 5 > taken
[ "$(cat ended taken)" = $'5\nstats' ] && told 'Broken pipe' \
    || fail "a pipe that takes 5 bytes ends with '$(cat ended taken)'"

# Runs that are killed at any moment, and two that write one name.
for ((n = 0; n < 60; n++)); do
    "$program" build job > printed 2>&1 &
    sleep "0.00$((n % 10))"
    { kill -KILL $! && wait $!; } 2> told
    is_whole out.mmdb
done
puts 0 'emit out.mmdb'
left 0
for ((n = 0; n < 30; n++)); do
    "$program" build job > one & first=$!
    "$program" build other > two || fail "one of two writers ends with status $?: $(cat two)"
    wait "$first" || fail "one of two writers ends with status $?: $(cat one)"
    is_whole out.mmdb
done
left 0

# A kill when the bytes are written and not yet in place, and the mode that the new file has by
# then.
if ! needs strace strace; then
    :
elif strace -o trace true 2> told; then
    chmod 600 out.mmdb
    cp out.mmdb before
    {
        strace -o trace -e trace=fsync -e inject=fsync:signal=KILL:when=1 \
            "$program" build other > printed
    } 2> told
    cmp -s out.mmdb before || fail "a put that was killed spoils the file"
    left 1
    has_mode 600 '.geofeed new 0'
    puts 0 'emit out.mmdb'
    left 0
    strace -o trace -e trace=openat,fchmod,fsync,rename "$program" build other > printed
    calls=$(sed -n '/geofeed new/,$p' trace | grep -v '"/proc/' | sed -E 's/\(.*//' | tr '\n' ' ')
    [[ "$calls" == 'openat fchmod fsync rename openat fsync '* ]] || fail "a put calls $calls"
    grep -q 'O_EXCL.*, 0600)' trace || fail "a private file's successor is made with another mode"
    # The block that main takes and lets go: 33,488,896 bytes that are mapped, and no other.
    strace -o trace -e trace=mmap,munmap "$program" --version > printed
    [ "$(grep -c '^mmap(NULL, 33492992, .*) = 0x' trace)" -eq 1 ] \
        && [ "$(grep -c '^munmap(0x.*, 33492992)' trace)" -eq 1 ] \
        || fail "main takes other blocks: $(cat trace)"
    for call in fchmod fsync rename; do
        strace -o trace -e "trace=$call" -e "inject=$call:error=EIO:when=1" \
            "$program" build job > printed 2> told
        [ $? -eq 5 ] && told 'nput/output error' || fail "a failed $call ends otherwise"
        cmp -s out.mmdb second || fail "a failed $call spoils the file"
        left 0
    done
else
    part "calls that fail, and a kill between two of them: strace may not trace here"
fi

# Who opens new files in a loop never gets one with a mode wider than the end's.
if needs perl perl; then
    chmod 600 out.mmdb
    perl -e '
        until (-e "stop") {
            for (glob ".geofeed*") {
                open(my $f, "<", $_) or next;
                $seen++;
                $wide++ if (stat $f)[2] & 077;
            }
        }
        printf "%d %d\n", $seen, $wide' > seen &
    watcher=$!
    for ((n = 0; n < 150; n++)); do "$program" build job > printed \
        || fail "a put beside a reader ends with status $?"; done
    touch stop
    wait "$watcher"
    read -r seen wide < seen
    [ "$wide" -eq 0 ] || fail "a private file was open to others $wide times"
    [ "$seen" -gt 0 ] || part "a reader in a loop: it came too late each time"
fi

# What needs rights: a full disk, a mount point, and the folders that another user may not write in.
mkdir small
if mount -t tmpfs -o size=64k tmpfs small 2> told; then
    cp s.txt small && head -c 40000 /dev/zero > small/filler && job small/out.mmdb > bad
    puts 0 'emit small/out.mmdb' bad
    cp small/out.mmdb before && head -c 60000 /dev/zero >> small/filler 2> told
    puts 5 'stop write small/out.mmdb' bad && told 'No space left'
    cmp -s small/out.mmdb before || fail "a full disk spoils the file"
    left 0 small
    job small > bad && puts 5 'stop write small' bad
    umount small
    : > point && mount --bind first point && job point > bad
    puts 5 'stop write point' bad && told 'busy' && umount point
    left 0
else
    part "a full disk and a mount point: nothing may be mounted here"
fi
if [ "$(id -u)" -eq 0 ] && setpriv --reuid 65534 --clear-groups true 2> told; then
    mkdir -m 1777 sticky && mkdir -m 755 closed && cp first sticky/out.mmdb
    chmod 666 sticky/out.mmdb && chmod 711 . && chmod 644 s.txt
    for folder in sticky closed; do
        job "$folder/out.mmdb" > bad
        chmod 644 bad
        printed=$(setpriv --reuid 65534 --clear-groups "$program" build bad 2> told)
        [ "$? $printed" = "5 stop write $folder/out.mmdb" ] \
            || fail "a $folder folder ends otherwise: $printed"
        left 0 "$folder"
    done
    cmp -s sticky/out.mmdb first || fail "a sticky folder's file was written"
else
    part "the folders of another user: this is not root, or there is no setpriv"
fi

verdict
