#!/usr/bin/env bash
# What the README says is trusted: each crate of the toolchain's that crates.txt lists below the
# programs, and what the proof of the program itself says that it takes as given. These words are
# those of the gate's run, or where the program was kept, of the run that proved it. That run's
# words are kept beside each other outside the repository, by a checksum of the text that they are
# about.
set -u
cd "$(dirname "${BASH_SOURCE[0]}")/.." || exit 1
. checks/words.bash
kept=${XDG_CACHE_HOME:-${HOME:-/tmp}/.cache}/fuzdrab/proved

# The program's own crate and those below it.
below() {
    awk -F: '/^#/ { next } { sub(/ .*/, "", $1); below[$1] = $2 }
        END {
            list[1] = "geofeed"
            count = 1
            for (at = 1; at <= count; at++) {
                words = split(below[list[at]], names, " ")
                for (word = 1; word <= words; word++)
                    if (names[word] in below && !seen[names[word]]++) list[++count] = names[word]
            }
            for (at = 1; at <= count; at++) print list[at]
        }' crates.txt
}

# text: a checksum of all that the proof of the program stands on.
text() {
    local name
    {
        rt version
        cat crates.txt HANDLES
        for name in $(below | sort); do
            find "crates/$name"/{src,specs,proofs} -type f 2> /dev/null | sort | xargs -r sha256sum
        done
    } | sha256sum | cut -d ' ' -f 1
}

# verdict_of LOG: the last words of the program's proof in what `rt ci` or `rt run` said.
verdict_of() {
    sed -n '/^== geofeed$/,/^rt: geofeed \(NOT \)\{0,1\}[pP]/p' "$1" 2> /dev/null \
        | grep '^logic=proved .*axioms=' | tail -n 1
}

# built: the verdict of the build by ./geofeed, where no source is newer.
built() {
    local log=crates/geofeed/out/build.log folders=(crates.txt) name
    for name in $(below); do
        folders+=("crates/$name"/{src,specs,proofs})
    done
    [ -s "$log" ] && [ -z "$(find "${folders[@]}" -newer "$log" -print -quit 2> /dev/null)" ] \
        && grep '^logic=proved .*axioms=' "$log" | tail -n 1
}

# heard_again: the verdict of the program's crate, which is proved once more for it, in a copy with
# a line of its own and without its edits. All below it has to be proved and kept already.
heard_again() {
    local copy
    copy=$(mktemp -d) || return 1
    mkdir "$copy/crates" "$copy/.git"
    cp HANDLES "$copy"
    for name in $(below); do
        grep "^$name:" crates.txt >> "$copy/names"
        mkdir "$copy/crates/$name"
        cp -r "crates/$name"/{src,specs,proofs} "$copy/crates/$name" 2> /dev/null
    done
    # In the order of crates.txt, lowest first.
    grep -xFf "$copy/names" crates.txt > "$copy/crates.txt"
    echo '// Proved once more.' >> "$copy/crates/geofeed/src/main.rt"
    (cd "$copy" && rt ci) > "$copy/log" 2>&1
    verdict_of "$copy/log"
    rm -rf "$copy"
}

section=$(sed -n '/^## Trusted$/,/^## /p' README.md)

# trusted WORDS: the README's section has them.
trusted() {
    [[ "$section" == *"$1"* ]] || fail "README.md does not name $1 as trusted"
}

count=0
while read -r name; do
    trusted "\`$name\`"
    count=$((count + 1))
done < <(awk -F: '/^#/ { next }
    {
        sub(/ .*/, "", $1)
        own[$1] = 1
        words = split($2, names, " ")
        for (at = 1; at <= words; at++) named[names[at]] = 1
    }
    END { for (name in named) if (!(name in own)) print name }' crates.txt | sort)
counted 5 "$count" "crates of the toolchain's"

if ! command -v rt > /dev/null; then
    fail "what the proof takes as given is not heard: there is no rt"
    verdict
fi
sum=$(text)
line=
if [ -n "${GATE_LOG:-}" ]; then
    line=$(verdict_of "$GATE_LOG")
fi
if [ -n "$line" ]; then
    mkdir -p "$kept" && echo "$line" > "$kept/$sum"
elif [ -s "$kept/$sum" ]; then
    line=$(cat "$kept/$sum")
elif [ -z "${GATE_LOG:-}" ]; then
    line=$(built)
elif grep -qx 'rt: geofeed is kept: .*' "$GATE_LOG"; then
    echo "$check: no run of the gate heard the proof of the program: it is proved once more"
    line=$(heard_again)
    [ -z "$line" ] || { mkdir -p "$kept" && echo "$line" > "$kept/$sum"; }
fi
if [ -z "$line" ]; then
    fail "what the proof takes as given was heard neither by this run nor by an earlier one"
fi
count=0
for word in $line; do
    case "$word" in
        axioms=*) trusted "${word#axioms=} axioms" && count=$((count + 1)) ;;
        *=trusted) trusted "$word" && count=$((count + 1)) ;;
    esac
done
[ -z "$line" ] || counted 4 "$count" "words of the program's proof"
verdict
