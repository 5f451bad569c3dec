#!/usr/bin/env bash
# contrib/geofeed-notes: each note of a report in words, with its file, its line, what stands there
# and what was meant; the counts; and what `--strict` says of a feed of one's own. Each rule code of
# the program has its words.
set -u
cd "$(dirname "${BASH_SOURCE[0]}")/.." || exit 1
script=$PWD/contrib/geofeed-notes
codes=$(sed -n 's/^ *\([PFSOA][0-9][0-9]\),.*/\1/p' crates/geo_terms/src/note.rt)
. checks/with_program.bash
[ -x /usr/bin/python3 ] || skip "there is no python3 (Debian's python3)"
[ -n "$codes" ] || fail "the code's rules are not found"
for code in $codes; do
    grep -q "^    '$code': '" "$script" || fail "$code has no words"
done
mkdir bin && ln -s "$program" bin/geofeed && export PATH=$work/bin:$PATH

printf '%b\n' 'inetnum: 192.0.2.0/24' 'geofeed: https://a.example/f.csv' foo '' \
    'inetnum: 192.0.3.0/24' 'geofeed: http://a.example/g\033[31m' > dump
printf 'nro|ZZ|ipv4|192.0.2.0|256||allocated\n' > stats
printf '%s\n' 'epoch 1' 'rpsl r dump' 'stats s stats' 'feed https://a.example/f.csv f.csv' \
    'overrides own.csv' report > job

# The table: a line of the feed, and what is said of it behind FILE:LINE:. Some bytes are written as
# \xNN. A row goes on behind a backslash at the end of its line.
while IFS='|' read -r line wanted; do
    printf '%b\n' "$line" >> f.csv
    echo "f.csv:$(wc -l < f.csv): $wanted" >> wanted
done <<END
192.0.2.7/24;DE;;;|F04 the first field is no prefix (semicolons between the fields: \
did you mean 192.0.2.7/24,DE,,,): 192.0.2.7/24;DE;;;
192.0.2.1\tDE|F04 the first field is no prefix (tabs between the fields: \
did you mean 192.0.2.1,DE): 192.0.2.1\tDE
192.0.2.9/28,DE|F04 the first field is no prefix (host bits are set: \
did you mean 192.0.2.0/28): 192.0.2.9/28,DE
2001:db8::1/32,DE|F04 the first field is no prefix (host bits are set: \
did you mean 2001:db8::/32): 2001:db8::1/32,DE
192.0.2.0-192.0.2.5,DE,,,|F04 the first field is no prefix (a feed has prefixes: \
did you mean 192.0.2.0/30 192.0.2.4/31): 192.0.2.0-192.0.2.5,DE,,,
prefix,country|F04 the first field is no prefix (a heading: put # before it): prefix,country
<html>|F04 the first field is no prefix (a web page: fetch the file again): <html>
192.0.2.0/24,GER,,,|F05 the country is not two letters (did you mean DE): 192.0.2.0/24,GER,,,
192.0.2.0/25,DE,BY,,|F06 the region is not like DE-BY (did you mean DE-BY): 192.0.2.0/25,DE,BY,,
192.0.2.1/24,DE,,M\xfcn,|F01 not UTF-8 (saved as Latin-1? \
then 192.0.2.1/24,DE,,Mün,): 192.0.2.1/24,DE,,M\xfcn,
192.0.2.128/26,UK,,London|- the country UK is GB in ISO 3166: 192.0.2.128/26,UK,,London
192.0.2.192/27,DE,FR-75,Paris|- the region FR-75 is not of the country DE: \
192.0.2.192/27,DE,FR-75,Paris
192.0.2.224/28,DE,,Par\x07is|- a control character is in the place: 192.0.2.224/28,DE,,Par\x07is
9.9.9.0/24,DE,,,|F09 no object of the dumps names this feed for this prefix: 9.9.9.0/24,DE,,,
END
echo '192.0.2.240/28,DE,,"Berlin, Mitte",' >> f.csv
cp wanted feed.wanted
cat >> own.csv <<'END'
192.0.2.0/24,DE,,,
192.0.2.0/24,Set,DE
192.0.2.9-192.0.2.1,void
192.0.2.0/25,set,UK
END
cat >> wanted <<END
own.csv:1: O04 the second field is neither set nor void (a line of a feed? \
did you mean 192.0.2.0/24,set,DE,,,): 192.0.2.0/24,DE,,,
own.csv:2: O04 the second field is neither set nor void (in lower case: set): 192.0.2.0/24,Set,DE
own.csv:3: O03 the first field is no prefix and no range: 192.0.2.9-192.0.2.1,void
own.csv:4: - the country UK is GB in ISO 3166: 192.0.2.0/25,set,UK
dump:3: P02 neither an attribute nor a continuation: foo
dump:6: P06 the URL is not https: geofeed: http://a.example/g\x1b[31m
stats:1: S06 the country is not two letters, or is ZZ: nro|ZZ|ipv4|192.0.2.0|256||allocated
END
geofeed build job > report || fail "the job is refused: $(cat report)"
"$script" job report > said 2> told || fail "it ends with status $?: $(cat told)"
diff <(sort wanted) <(sort said) > differ || fail "it says otherwise: $(cat differ)"
"$script" --count job report > said
grep -qE '^ +7 feed +F04 the first field is no prefix$' said || fail "it counts '$(cat said)'"
[ "$(awk '{ sum += $1 } END { print sum }' said)" = "$(sed -n 's/^notes //p' report)" ] \
    || fail "the counts are not those of the report"

"$script" --strict job https://a.example/f.csv > said
[ $? -eq 1 ] || fail "--strict takes a feed with refused lines"
sed 's/: F09 no object/: uncovered no object/' feed.wanted | diff - said > differ \
    || fail "--strict says otherwise: $(cat differ)"
printf '192.0.2.0/24,DE,,,\n# nothing\n' > f.csv
"$script" --strict job https://a.example/f.csv > said \
    || fail "--strict refuses a feed of which each line speaks: $(cat said)"
[ ! -s said ] || fail "--strict says of it '$(cat said)'"
"$script" --strict job https://a.example/other > said 2>&1
[ $? -eq 3 ] && grep -q 'no feed of the URL' said \
    || fail "--strict of another URL says '$(cat said)'"
for words in '' 'job' '--strict job' '--count job' '-x job report'; do
    # shellcheck disable=SC2086
    "$script" $words > said 2>&1
    [ $? -eq 2 ] && grep -q '^usage:' said || fail "'$words' ends otherwise: $(cat said)"
done
"$script" none report > said 2>&1
[ $? -eq 3 ] && [ "$(cat said)" = 'geofeed-notes: none: No such file or directory' ] \
    || fail "a missing file is not named: $(cat said)"

verdict
