#!/usr/bin/env bash
# Work that no result tells of: done twice, done anew for each line, each feed or each emit, one
# step at a time where halving serves, or for nothing; and bytes that are kept for longer than they
# are read. It is counted and not timed, so a busy machine changes no verdict: allocations and the
# bytes that they ask for (checks/counted.cpp), the most memory, and thousands of instructions
# (valgrind). A bound is a multiple of what is counted in the same run, or stands a little above
# what was counted when it was set: then a change of the code that moves the number moves the bound
# with it.
set -u
cd "$(dirname "${BASH_SOURCE[0]}")/.." || exit 1
counted=$PWD/checks/counted.cpp
random6=$PWD/bench/random6.awk
# shellcheck disable=SC2034
in_memory=300000
. checks/with_program.bash
needs g++ g++ || skip "what a run asks for cannot be counted"
g++ -O1 -shared -fPIC -o counted.so "$counted" \
    || { fail "checks/counted.cpp is not compiled"; verdict; }
url=https://made.example/
# How many bounds were looked at, and how many there are.
looked=0 bounds=16

# counts WORDS..: in `allocations` those of a command, and in `bytes` those that they ask for.
counts() {
    COUNTED=count LD_PRELOAD=./counted.so "$program" "$@" > printed 2> told \
        || fail "'$*' ends otherwise: $(cat printed told)"
    read -r allocations bytes < <(od -An -tu8 -N16 count)
}

# instructions WORDS..: in `taken` how many thousands of them a command takes.
instructions() {
    valgrind --tool=cachegrind --cache-sim=no --cachegrind-out-file=/dev/null --log-file=log \
        "$program" "$@" > printed 2> told || fail "'$*' ends otherwise: $(cat printed told)"
    taken=$(sed -n 's/.* I *refs: *//p' log | tr -d , | awk '{ print int($1 / 1000) }')
}

# peak WORDS..: in `most` the most KiB that a command has in memory.
peak() {
    /usr/bin/time -f %M -o spent "$program" "$@" > printed 2> told \
        || fail "'$*' ends otherwise: $(cat printed told)"
    most=$(cat spent)
}

# bound FOUND MOST WHAT: there is some of it, and at most so much.
bound() {
    looked=$((looked + 1))
    echo "$check: $3: $1, at most $2"
    [ "$1" -gt 0 ] && [ "$1" -le "$2" ] || fail "$3: $1, and not at most $2"
}

# job LINES..: a job of one piece with these lines.
job() { printf '%s\n' 'epoch 1700000000' 'pieces 1' "$@" > job; }

# source_of KIND LINES: a source of so many lines side by side that say one place, as the file
# `source`, and the line of a job that sets it in `sets`.
source_of() {
    case "$1" in
        stats | rpsl) sets="$1 made source" ;;
        feed) sets="feed ${url}a source" ;;
        overrides) sets='overrides source' ;;
    esac
    awk -v kind="$1" -v lines="$2" -v url="$url" 'BEGIN {
        for (n = 0; n < lines; n++) {
            at = 10 + int(n / 65536) "." int(n / 256) % 256 "." n % 256
            if (kind == "stats") print "x|DE|ipv4|" at ".0|256||allocated"
            if (kind == "feed") print at ".0/24,DE,DE-BE,Berlin,"
            if (kind == "overrides") print at ".0/24,set,DE,DE-BE,Berlin,"
            if (kind == "rpsl") print "inetnum: " at ".0 - " at ".255\ngeofeed: " url "a\n"
        } }' > source
}

# What a line more costs: allocations for each thousand lines that are read and set, bytes for each
# of them, and bytes for each in an emit.
while read -r kind most most_read most_emit; do
    for lines in 8000 16000; do
        source_of "$kind" "$lines"
        job "$sets"
        counts build job
        texts=$allocations read=$bytes
        echo 'emit out.mmdb' >> job
        counts build job
        if [ "$lines" -eq 8000 ]; then
            less=("$texts" "$read" "$bytes")
        fi
    done
    bound $(((texts - less[0] + 7) / 8)) "$most" "$kind: allocations for a thousand lines"
    bound $(((read - less[1]) / 8000)) "$most_read" "$kind: bytes for a line that is set"
    bound $(((bytes - read - less[2] + less[1]) / 8000)) "$most_emit" "$kind: bytes for its emit"
done << 'END'
stats 10 390 187
feed 10 2225 110
overrides 10 420 110
rpsl 3100 880 370
END

# An emit behind a small change reads what the change touches: behind 20,000 delegations, or
# references, no more than twice what it does behind 200.
while read -r kind name line; do
    for lines in 200 20000; do
        source_of "$kind" "$lines"
        job "$sets" 'emit out.mmdb'
        counts build job
        before=$bytes
        for ((n = 0; n < 20; n++)); do
            says=FR,,,
            [ "$kind" = rpsl ] || says=set,FR
            echo "10.0.$n.0/24,$says" > "$n"
            printf '%s %s\nemit out.mmdb\n' "$line" "$n" >> job
        done
        counts build job
        [ "$lines" -eq 20000 ] || few=$((bytes - before))
    done
    bound $(((bytes - before) / 20)) $((few / 10)) "$name: bytes for each emit"
done << END
stats overrides overrides
rpsl feeds feed ${url}a
END

# An emit behind a change of up to a fifth of all: bytes for each line that changed.
source_of stats 20000
for lines in 2000 4000; do
    job "$sets" 'emit out.mmdb' 'overrides over'
    awk -v lines="$lines" 'BEGIN {
        for (n = 0; n < lines; n++) print "10." int(n / 256) "." n % 256 ".0/24,set,FR" }' > over
    counts build job
    before=$bytes
    echo 'emit out.mmdb' >> job
    counts build job
    [ "$lines" -eq 4000 ] || few=$((bytes - before))
done
bound $(((bytes - before - few) / 2000)) 290 'a later emit: bytes for each line that changed'

# Nodes that each of many emits leaves behind: a layout takes four bytes for each node of the store,
# so what all of them ask for grows by its square.
counts --version
none=$bytes
for count in 150 600; do
    job
    for ((n = 0; n < count; n++)); do
        echo "11.0.$((n / 256)).$((n % 256))/32,set,FR" > "$n"
        printf 'overrides %s\nemit out.mmdb\n' "$n" >> job
    done
    counts build job
    [ "$count" -eq 600 ] || few=$((bytes - none))
done
bound $(((bytes - none - 4 * few) / 135000 / 4)) 250 'nodes that an emit adds'

# What is kept while a source is set, and of a source that is set: a second long file of a kind
# takes no more than the first, and of short lines the bytes are gone when their grounds are made.
if [ -x /usr/bin/time ]; then
    bounds=$((bounds + 9))
    while read -r kind wanted; do
        source_of "$kind" 200000
        job "$sets"
        peak --version && none=$most
        peak build job
        bound $(((most - none) * 1024 / 200000)) "$wanted" \
            "$kind: most bytes for each of many lines"
        : > source && truncate -s 60000000 source && job "$sets"
        peak build job && one=$most
        [ "$kind" != rpsl ] || bound "$one" 8000 'rpsl: most KiB with one file'
        printf '%s\n' 'mark m' "${sets/made/more}" >> job
        sed -i '$s/a source/b source/' job
        peak build job
        bound "$most" $((one + one / 4)) "$kind: most KiB with two files"
    done << 'END'
stats 120
feed 270
overrides 200
rpsl 120
END
else
    lacks /usr/bin/time time
fi

if needs valgrind valgrind; then
    bounds=$((bounds + 5))
    # Pairs of nodes, most of them new. A feed is published of a block without any, so no tree is
    # laid out.
    awk -v lines=2000 -f "$random6" > source
    job 'stats made source'
    instructions build job && read=$taken
    instructions publish job 10.0.0.0/8 own.csv && painted=$taken
    bound $((painted - read)) 67500 'a tree of 230,000 nodes'

    # A report looks for the feed of a reference by halving: the last of 400 takes little more than
    # the last of four. None has a line that is noted.
    awk 'BEGIN {
        for (n = 0; n < 4000; n++) {
            at = "10." int(n / 256) "." n % 256
            print "inetnum: " at ".0 - " at ".255\ngeofeed: https://feeds.example/999\n"
        } }' > source
    echo '# no line' > none
    for count in 4 400; do
        job 'rpsl made source'
        for ((n = 1000 - count; n < 1000; n++)); do
            echo "feed https://feeds.example/$n none"
        done >> job
        instructions build job && set=$taken
        echo report >> job
        instructions build job && told=$((taken - set))
        [ "$count" -eq 400 ] || few=$told
    done
    bound "$told" $((3 * few)) 'a report over 400 feeds'

    # A check goes from a reference to the next that reaches farther, over all those between.
    awk -v url="$url" 'BEGIN {
        print "inetnum: 10.0.0.0 - 10.255.255.255\ngeofeed: " url "a\n"
        for (n = 0; n < 8000; n++) {
            at = "10." int(n / 256) "." n % 256
            print "inetnum: " at ".0 - " at ".255\ngeofeed: " url (n % 2 ? "a" : "b") "\n"
            if (n % 2 == 0) print at ".0/28,DE" > "feed"
        } }' > dump
    job 'rpsl made dump' "feed ${url}a feed"
    instructions build job && set=$taken
    instructions check job "${url}a"
    bound $((taken - set)) 100000 'a check of 4,000 lines'
    [ "$(grep -c ' shadowed made 2$' printed)" -eq 4000 ] || fail "the lines are not shadowed"

    # References that nest take little more than those that lie apart.
    for kind in apart nest; do
        awk -v url="$url" -v kind="$kind" 'BEGIN {
            for (n = 0; n < 4000; n++) {
                last = kind == "nest" ? 7999 - n : n
                print "inetnum: 10." int(n / 256) "." n % 256 ".0 - 10." int(last / 256) "." \
                    last % 256 ".255\ngeofeed: " url "a\n" > "dump"
                print "10." int(n / 256) "." n % 256 ".0/28,DE" > "feed"
            } }'
        job 'rpsl made dump' "feed ${url}a feed"
        instructions build job && set=$taken
        instructions check job "${url}a" && checked=$((taken - set))
        echo 'emit out.mmdb' >> job
        instructions build job && emitted=$((taken - set))
        [ "$kind" = nest ] || apart=("$checked" "$emitted")
    done
    bound "$checked" $((apart[0] * 2)) 'a check of references that nest'
    bound "$emitted" $((apart[1] * 2)) 'an emit of references that nest'
fi
counted "$bounds" "$looked" bounds
verdict
