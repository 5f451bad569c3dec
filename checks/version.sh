#!/usr/bin/env bash
# The toolchain's line that the program and the README name is that of the toolchain which proves
# them; and what the program prints of itself: its version, its help, and how it is used. Tools and
# manuals have its version.
set -u
cd "$(dirname "${BASH_SOURCE[0]}")/.." || exit 1
source=$PWD/crates/geofeed/src/main.rt
readme=$PWD/README.md
. checks/with_program.bash
if command -v rt > /dev/null; then
    line=$(rt version)
    for file in "$readme" "$source"; do
        grep -qF "$line" "$file" || fail "$file does not name '$line'"
    done
else
    part "the toolchain's line: there is no rt"
fi
number=$(sed -n 's/^const VERSION: &str = "geofeed \([0-9.]*\) .*/\1/p' "$source")
top=${readme%/README.md}
for file in "$top"/contrib/feeds-of-dump "$top"/contrib/geofeed-daily; do
    grep -qx "VERSION = '$number'" "$file" || fail "$file is not of version $number"
done
for file in "$top"/geofeed.1 "$top"/contrib/geofeed-*.1 "$top"/contrib/feeds-of-dump.1; do
    sed -n 1p "$file" | grep -qF "\"geofeed $number\"" || fail "$file is not of version $number"
done
grep -q "^## $number" "$top/CHANGELOG.md" || fail "CHANGELOG.md does not name version $number"

# says STATUS WORDS..: the program ends so, with what it prints in `printed` and what it says in
# `told`.
says() {
    local wanted=$1
    shift
    "$program" "$@" > printed 2> told
    local status=$?
    [ "$status" -eq "$wanted" ] || fail "'$*' ends with status $status, and not $wanted"
}

# A program that the script `geofeed` has built has its commit behind that.
wanted=$(sed -n 's/^const VERSION: &str = "\(.*\)";$/\1/p' "$source")
for word in --version -V; do
    says 0 "$word"
    printed=$(sed -E '1s/ commit [0-9a-f]{7,40}(\+changes)?$//' printed)
    [ -n "$wanted" ] && [ "$printed" = "$wanted" ] && [ ! -s told ] \
        || fail "$word prints '$(cat printed)'"
done
for word in --help -h; do
    says 0 "$word"
    grep -q '^  geofeed build JOB ' printed && [ ! -s told ] || fail "$word prints '$(cat printed)'"
done
for words in '' 'build' 'build job more' '-v' '--version more' 'lookup file 192.0.2.1.5'; do
    # shellcheck disable=SC2086
    says 2 $words
    [ "$(cat printed)" = 'stop words' ] || fail "'$words' prints '$(cat printed)'"
    [ "$(wc -l < told)" -eq 1 ] && grep -q '^geofeed: ' told || fail "'$words' says '$(cat told)'"
done

verdict
