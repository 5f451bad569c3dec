#!/usr/bin/env bash
# The trials of checks/trials/*.txt by the built program: what commands print, write and end with
# over given files. checks/trials/README.md says how a table is written.
set -u
export LC_ALL=C
cd "$(dirname "${BASH_SOURCE[0]}")/.." || exit 1
tables=$PWD/checks/trials
# shellcheck disable=SC2034
in_memory=300000
. checks/with_program.bash
set -f
shopt -s nullglob dotglob
trials=0 failing=0 runs=0 title='' good=yes into='' wanted='' told='' warned=''

# broken WHAT: the table cannot be read.
broken() {
    fail "${table##*/}, line $number: $*"
}

# differs WHAT WANTED FOUND: the trial fails.
differs() {
    fail "${table##*/}, '$title', before line $number: $1"
    printf '%s\n' '  wanted:' "$2" '  found:' "$3" | sed '/^  wanted:$\|^  found:$/!s/^/    /'
    good=
}

# content NAME: the bytes of this file in `found`, where no byte of it is 0.
content() {
    found=
    ! IFS= read -r -d '' found < "$1" || found="bytes of which one is 0, behind: $found"
}

# heard: what is on standard error, in `told` but for the warnings, which stand last, in `warned`.
heard() {
    local line
    content "$work/told"
    told='' warned=''
    while IFS= read -r line; do
        if [[ "$line" == 'warning: '* ]]; then
            warned+=$line$'\n'
        else
            told+=$line$'\n'
        fi
    done <<< "${found%$'\n'}"
    [ -n "$found" ] || told=
    [ "$found" = "$told$warned" ] \
        || differs "what '${words[*]}' says" 'lines, the warnings last' "$found"
}

# unwarned: no warning is left that the table does not have.
unwarned() {
    [ -z "$warned" ] || differs "what '${words[*]}' warns of" 'nothing else' "$warned"
    warned=
}

# warns LINE: the next warning of the last run.
warns() {
    local rest=${warned#"warning: $1"$'\n'}
    [ "$rest" != "$warned" ] || differs "what '${words[*]}' warns of" "$1" "$warned"
    warned=$rest
}

# run STATUS WORDS..: the program ends so, and says nothing or one line, but for warnings.
run() {
    local status=$1 at ended
    unwarned
    words=("${@:2}")
    for at in "${!words[@]}"; do
        if [ "${words[at]}" = "''" ]; then
            words[at]=
        else
            printf -v 'words[at]' %b "${words[at]}"
        fi
    done
    runs=$((runs + 1))
    "$program" "${words[@]}" < /dev/null > "$work/printed" 2> "$work/told"
    ended=$?
    heard
    [ "$ended" = "$status" ] \
        || differs "the status of '${words[*]}'" "$status" "$ended, saying '$told'"
    if [ "$status" = 0 ]; then
        [ -z "$told" ] || differs "what '${words[*]}' says" nothing "$told"
    elif [[ "$told" != ?*$'\n' || "$told" == *$'\n'?* ]]; then
        differs "what '${words[*]}' says" 'one line' "$told"
    fi
}

# printed: the last run printed what is wanted.
printed() {
    content "$work/printed"
    [ "$found" = "$wanted" ] || differs "what '${words[*]}' prints" "$wanted" "$found"
}

# stands NAME: there is such a file.
stands() {
    [ -f "$1" ] || { differs "the file '$1'" 'is there' 'is not there'; false; }
}

has_bytes() {
    stands "$1" || return
    content "$1"
    [ "$found" = "$wanted" ] || differs "the bytes of '$1'" "$wanted" "$found"
}

# compared HOW A B: the files are equal or not.
compared() {
    local how=other
    stands "$2" && stands "$3" || return
    ! cmp -s "$2" "$3" || how=same
    [ "$how" = "$1" ] || differs "the files '$2' and '$3'" "$1" "$how"
}

# left NAMES: the entries of the folder that the table did not make.
left() {
    local name names=
    set +f
    for name in *; do
        [ -n "${given[$name]-}" ] || names+=" $name"
    done
    set -f
    [ "${names# }" = "$1" ] || differs 'the files that are left' "$1" "${names# }"
}

# over: what the last text lines were for.
over() {
    case "$into" in
        printed) printed ;;
        bytes\ *) has_bytes "${into#bytes }" ;;
    esac
    into='' wanted=''
}

# text BYTES: this text, with escapes, belongs to what stands before it.
text() {
    local bytes
    case "$into" in
        'file '*) printf %b "$1" >> "${into#file }" ;;
        '') broken 'a text that belongs to nothing' ;;
        *) printf -v bytes %b "$1" && wanted+=$bytes ;;
    esac
}

# line BYTES: the same with a line end and without escapes.
line() {
    case "$into" in
        'file '*) printf '%s\n' "$1" >> "${into#file }" ;;
        '') broken 'a text that belongs to nothing' ;;
        *) wanted+=$1$'\n' ;;
    esac
}

# repeated TIMES BYTES: the text in a file, so many times.
repeated() {
    [[ "$into" == 'file '* ]] || { broken 'a text that is repeated, and not in a file'; return; }
    UNIT=$(printf '%b.' "$2") awk -v times="$1" 'BEGIN { unit = ENVIRON["UNIT"]; sub(/.$/, "", unit)
        while (times-- > 0) printf "%s", unit }' >> "${into#file }"
}

# makes NAME: the table has made this entry.
makes() {
    [[ "$1" != */* ]] || mkdir -p "${1%/*}"
    given[${1%%/*}]=yes
}

# ends: the trial is over.
ends() {
    over
    [ -n "$title" ] || return
    unwarned
    [ "$runs" -gt 0 ] || broken "'$title' runs nothing"
    [ -n "$good" ] || failing=$((failing + 1))
    cd "$work" && rm -rf "${work:?}/$trials"
}

# begins TITLE: a trial begins.
begins() {
    ends
    title=$1 good=yes runs=0 trials=$((trials + 1))
    declare -gA given=()
    mkdir "$work/$trials" && cd "$work/$trials" || exit 1
}

# follows LINE: a line that is no text.
follows() {
    local rest=${1#* }
    over
    if [ -z "$title" ]; then
        broken 'a line before the first title'
        return
    fi
    case "$1" in
        'file '?*) makes "$rest" && : > "$rest" && into="file $rest" ;;
        'folder '?*) mkdir -p "$rest" && makes "$rest" ;;
        'run '[0-9]*)
            # The words are apart by blanks.
            # shellcheck disable=SC2086
            run $rest
            into=printed
            ;;
        'does '?*)
            # shellcheck disable=SC2086
            run 0 $rest
            ;;
        'says '?*)
            if [ "$runs" -eq 0 ]; then
                broken 'nothing was run that could say it'
            elif [ "$told" != "$rest"$'\n' ]; then
                differs "what '${words[*]}' says" "$rest" "$told"
            fi
            ;;
        'warns '?*) warns "$rest" ;;
        left) left '' ;;
        'left '?*) left "$rest" ;;
        'bytes '?*) into="bytes $rest" ;;
        'same '?*' '?* | 'other '?*' '?*)
            # shellcheck disable=SC2086
            compared $1
            ;;
        *) broken "'$1' is not read" ;;
    esac
}

# tried TABLE: all of its trials.
tried() {
    local line before=$trials
    table=$1 number=0 title=
    [ -f "$table" ] && [ -r "$table" ] || { broken 'the table cannot be read'; return; }
    while IFS= read -r line || [ -n "$line" ]; do
        number=$((number + 1))
        case "$line" in
            '' | '#'*) ;;
            '= '?*) begins "${line#= }" ;;
            '|') line '' ;;
            '| '*) line "${line#| }" ;;
            ': '*) text "${line#: }" ;;
            '* '[1-9]*' '?*)
                line=${line#\* }
                repeated "${line%% *}" "${line#* }"
                ;;
            *) follows "$line" ;;
        esac
    done < "$table"
    ends
    title=
    [ "$trials" -gt "$before" ] || broken 'the table has no trial'
}

set +f
files=("$tables"/*.txt)
set -f
[ "${#files[@]}" -gt 0 ] || fail "there is no table in $tables"
for file in "${files[@]}"; do
    tried "$file"
done
echo "$check: $((trials - failing)) of $trials trials passed"
verdict
