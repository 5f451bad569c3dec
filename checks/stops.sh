#!/usr/bin/env bash
# What the built program says of mistakes: each with its status, its stop line on standard output,
# and its one line of words on standard error. And each line of words that docs/stops.md shows is
# one that is said here, and the jobs that the manual and docs/job-file.md show are jobs.
set -u
cd "$(dirname "${BASH_SOURCE[0]}")/.." || exit 1
page=$PWD/docs/stops.md
manual=$PWD/geofeed.1
jobs=$PWD/docs/job-file.md
example=$PWD/examples/realistic
. checks/with_program.bash
: > all

# stops STATUS LINE SAID WORDS..: the words end so.
stops() {
    local status=$1 line=$2 said=$3 ended
    shift 3
    timeout 120 "$program" "$@" > printed 2> told
    ended=$?
    [ "$ended" -eq "$status" ] && [ "$(tail -n 1 printed)" = "$line" ] \
        && [ "$(cat told)" = "$said" ] \
        || fail "'$*' ends with $ended, prints '$(cat printed)' and says '$(cat told)'," \
            "and not with $status, '$line' and '$said'"
    cat told >> all
}

# refuses LINES SAID: the last line of this job is refused, and this is said of it.
refuses() {
    local number
    printf '%b\n' "$1" > job
    number=$(wc -l < job)
    stops 6 "stop job $number" "job:$number: $2" build job
}

absolute='is absolute; names are at or below the current folder: run geofeed there, or link it'
stops 2 'stop words' 'geofeed: a command is missing; see geofeed --help'
stops 2 'stop words' 'geofeed: unknown command "bulid"; did you mean build?' bulid job
stops 2 'stop words' 'geofeed: JOB is missing; usage: geofeed build JOB' build
stops 2 'stop words' \
    "geofeed: the file name \"/etc/job\" $absolute" build /etc/job
stops 2 'stop words' \
    'geofeed: "192.0.2.0/24" is not an address; give one address, without a length' \
    lookup geo.mmdb 192.0.2.0/24
stops 2 'stop words' \
    'geofeed: host bits are set in "192.0.2.7/24"; the prefix is 192.0.2.0/24' \
    publish job 192.0.2.7/24 own.csv
stops 4 'stop missing job' \
    'geofeed: the job "job" is not there; names are looked up from the current folder' build job
"$program" build $'\xff' > printed 2> told
[ "$? $(cat printed told)" = '2 geofeed: a word is not UTF-8' ] \
    || fail "a word that is not UTF-8: '$(cat printed told)'"

refuses 'epoch 1\nstats x /etc/s.txt' \
    "the file name \"/etc/s.txt\" $absolute"
lines='epoch, type, pieces, rpsl, stats, feed, overrides, drop, emit, report, mark'
refuses 'epoch 1\nstatistics x s.txt' \
    "unknown keyword \"statistics\"; keywords are $lines, back and compact"
refuses 'epoch 1\nstat x s.txt' 'unknown keyword "stat"; did you mean stats?'
refuses 'epoch 1\nstats x s.txt # mine' \
    'a comment needs a line of its own; the line is: stats SLOT FILE'
refuses 'epoch 1\n# mine\nstats s.txt' 'a word is missing; the line is: stats SLOT FILE'
refuses 'stats x s.txt' \
    '"stats" comes before the epoch; the first line must be: epoch N'
refuses 'epoch 1\nreport\ntype City' \
    '"type" must come before the first step'
refuses 'epoch 1\nstats a/b s.txt' \
    'the name "a/b" has a character that is no ASCII letter, digit, "-", "_" or "."'
said='the epoch "yesterday" is not 1 to 20 decimal digits; '
refuses 'epoch yesterday' "${said}it is in seconds, as date +%s prints them"
printf '# nothing\n' > job
stops 6 'stop job empty' \
    'geofeed: the job has no line but blank ones and comments; it begins with: epoch N' build job
printf 'epoch 1\n# \xff\n' > job
stops 6 'stop job utf8' 'job:2: the line is not UTF-8, as a job has to be' build job
head -c 1048577 /dev/zero | tr '\0' '#' > job
stops 6 'stop job long' 'geofeed: the job has more than 1,048,576 bytes' build job

printf 'epoch 1\nstats x s.txt\nemit out.mmdb\n' > job
stops 4 'stop missing s.txt' \
    'job:2: the file "s.txt" is not there; names are looked up from the current folder' build job
mkdir s.txt
stops 3 'stop read s.txt' 'job:2: the file "s.txt" could not be read: is a directory' build job
rmdir s.txt && truncate -s 268435457 s.txt
stops 7 'stop source 2 bytes' 'job:2: the file "s.txt" has more than 268,435,456 bytes' build job
printf 'x|DE|ipv4|192.0.2.0|256||allocated\n' > s.txt
mkdir out.mmdb
said='job:3: the file "out.mmdb" could not be written: a folder has this name'
stops 5 'stop write out.mmdb' "$said" build job
rmdir out.mmdb
said='geofeed: the file "s.txt" is no MaxMind DB file, or its end is cut off: '
stops 9 'stop file NoMarker' "${said}no metadata marker stands in it" lookup s.txt 192.0.2.1
"$program" build job > printed 2> told
[ $? -eq 0 ] && [ ! -s told ] || fail "where all is done it says '$(cat told)'"
if [ -c /dev/full ]; then
    "$program" build job > /dev/full 2> told
    ended=$?
    said='geofeed: standard output could not be written: No space left on device (os error 28)'
    [ "$ended $(cat told)" = "5 $said" ] \
        || fail "of a full output it says '$(cat told)'"
    cat told >> all
    # Where a put fails and its stop line then too, the put is what is told.
    printf 'epoch 1\nemit out/a.mmdb\n' > job
    said='job:2: the file "out/a.mmdb" could not be written: there is no folder "out"'
    "$program" build job > /dev/full 2> told
    [ "$? $(cat told)" = "5 $said" ] || fail "of a put and a full output it says '$(cat told)'"
    "$program" build job >&- 2> told
    [ "$? $(cat told)" = "5 $said" ] || fail "of a put and a closed output it says '$(cat told)'"
fi

# All kinds of sources and all commands.
printf 'epoch 1\ndrop stats x\n' > job
stops 10 'stop drop 2' 'job:2: no statistics are set in the slot "x" at this line' build job
printf 'epoch 1\nback plain\n' > job
stops 11 'stop back 2' 'job:2: no line before this one makes the mark "plain"' build job
refuses 'epoch 1\nfeed http://geo.example.net/a.csv a.csv' \
    'the URL "http://geo.example.net/a.csv" is not a URL that begins with https://'
refuses 'epoch 1\ndrop feeds https://geo.example.net/a.csv' \
    'unknown kind "feeds"; did you mean drop feed?'
sed -n '/^\.SH EXAMPLES/,/^\.fi/p' "$manual" | grep -v '^\.' | sed 's/\\-/-/g' > shown
sed -n '/^```$/,/^```$/p' "$jobs" | grep -v '^```' > more
for job in shown more; do
    [ -s "$job" ] || fail "a page shows no job"
    sed -nE 's/^(rpsl|stats|feed) [^ ]* //p; s/^overrides //p' "$job" | while read -r file; do
        mkdir -p "$(dirname "$file")" && : > "$file"
    done
    "$program" build "$job" > printed 2> told \
        || fail "a job that a page shows ends otherwise: $(cat printed told)"
done
cp "$example"/* . 2> told
said='geofeed: no feed of the URL "https://no.example/f.csv" is in force at '
stops 12 'stop absent https://no.example/f.csv' \
    "${said}the job's end; the nearest is \"https://geo.example.net/c.csv\"" \
    check job https://no.example/f.csv
said='geofeed: the prefix "::/0" reaches from the IPv4 addresses into the IPv6 addresses; '
stops 2 'stop words' "${said}use 0.0.0.0/0 and 2000::/3, one at a time" publish job ::/0 own.csv
stops 2 'stop words' \
    'geofeed: the number of lines "0" is not a number from 1 to 1,000,000 without leading zeros' \
    gen 0 out.mmdb
count=0
while IFS= read -r line; do
    count=$((count + 1))
    grep -qxF -- "$line" all || fail "docs/stops.md shows '$line', which is not said"
done < <(sed -n '/^## In words/,/^## /p' "$page" | sed -n '/^```/,/^```/p' | grep -v '^```')
counted 5 "$count" 'lines of words that docs/stops.md shows'

# Of warnings a hundred are told, and how many more there are.
echo 'x|DE|ipv4|192.0.2.0|256||allocated' > given
{ echo 'epoch 1' && for ((n = 0; n < 104; n++)); do echo 'stats x given'; done; } > job
"$program" build job > printed 2> told
[ "$? $(wc -l < told)" = '0 101' ] \
    && [ "$(tail -n 1 told)" = 'warning: job: 3 more warnings are not shown' ] \
    || fail "of 103 warnings it tells $(wc -l < told): $(tail -n 1 told)"

verdict
