#!/usr/bin/env bash
# A file that the program writes, with many places and so with pointers in its data section, opened
# by other readers: Python's maxminddb, pure and as an extension, Perl's MaxMind::DB::Reader and
# Go's maxminddb. Each has to find at every address what the program's own `lookup` prints. A reader
# that is not there is passed over with a word.
set -u
cd "$(dirname "${BASH_SOURCE[0]}")/.." || exit 1
. checks/with_program.bash

# Delegations of 60 countries at random, and addresses inside and outside of them, the same in each
# run.
awk 'BEGIN {
    seed = 20240302
    for (n = 0; n < 600; n++) {
        country = sprintf("%c%c", 65 + below(6), 65 + below(10))
        if (below(4) > 0)
            printf "x|%s|ipv4|%d.%d.%d.0|%d||allocated\n", country,
                below(224), below(256), below(256), 1 + below(70000)
        else printf "x|%s|ipv6|2001:%x::|%d||allocated\n", country, below(256) * 256, 24 + below(9)
    }
}
function below(most) { seed = (seed * 16807) % 2147483647; return seed % most }' > s.txt
awk 'BEGIN {
    seed = 4712
    for (n = 0; n < 150; n++) {
        if (below(3) > 0) printf "%d.%d.%d.%d\n", below(224), below(256), below(256), below(256)
        else printf "2001:%x:%x::%x\n", below(256) * 256, below(65536), below(65536)
    }
}
function below(most) { seed = (seed * 16807) % 2147483647; return seed % most }' > addresses
printf 'epoch 1700000000\nstats x s.txt\nemit out.mmdb\n' > job
"$program" build job > printed || fail "build ended with status $?: $(cat printed)"
while IFS= read -r at; do
    "$program" lookup out.mmdb "$at" || fail "lookup of $at ended with status $?" >&2
done < addresses > wanted
[ "$(grep -c country wanted)" -gt 20 ] || fail 'hardly an address has a place'

readers=0

# agrees READER: what it printed is what the program found.
agrees() {
    readers=$((readers + 1))
    cmp -s printed wanted || fail "$1 finds something else: $(diff printed wanted | head -n 4)"
}

cat > reader.py <<'X'
import json, sys, maxminddb
mode = getattr(maxminddb, sys.argv[1])
with maxminddb.open_database('out.mmdb', mode) as reader:
    for line in open('addresses'):
        found = reader.get(line.strip())
        print('none' if found is None else json.dumps(
            found, separators=(',', ':'), ensure_ascii=False, sort_keys=True))
X
# Debian's own Python is meant, which has the reader.
python=/usr/bin/python3
if ! "$python" -c 'import maxminddb' 2> /dev/null; then
    lacks 'maxminddb for Python' python3-maxminddb
else
    modes=(MODE_FILE MODE_MMAP_EXT)
    if ! "$python" -c 'import maxminddb.extension' 2> /dev/null; then
        lacks "the extension of Python's maxminddb" python3-maxminddb
        modes=(MODE_FILE)
    fi
    for mode in "${modes[@]}"; do
        "$python" reader.py "$mode" > printed \
            || fail "maxminddb for Python, $mode, refuses the file"
        agrees "maxminddb for Python, $mode,"
    done
fi

if perl -MMaxMind::DB::Reader -e 1 2> /dev/null; then
    perl -MMaxMind::DB::Reader -MJSON::PP -e '
        my $reader = MaxMind::DB::Reader->new(file => "out.mmdb");
        my $json = JSON::PP->new->canonical;
        open my $addresses, "<", "addresses" or die;
        while (my $at = <$addresses>) {
            chomp $at;
            my $found = $reader->record_for_address($at);
            print defined $found ? $json->encode($found) : "none", "\n";
        }' > printed || fail "Perl's MaxMind::DB::Reader refuses the file"
    agrees "Perl's MaxMind::DB::Reader"
else
    lacks 'MaxMind::DB::Reader for Perl' libmaxmind-db-reader-perl
fi

# Debian puts Go's sources there.
gopath=${GOPATH:-/usr/share/gocode}
if command -v go > /dev/null && [ -d "$gopath/src/github.com/oschwald/maxminddb-golang" ]; then
    cat > reader.go <<'X'
package main

import (
	"bufio"
	"encoding/json"
	"fmt"
	"net"
	"os"

	"github.com/oschwald/maxminddb-golang"
)

func main() {
	reader, err := maxminddb.Open("out.mmdb")
	if err != nil {
		panic(err)
	}
	addresses, err := os.Open("addresses")
	if err != nil {
		panic(err)
	}
	lines := bufio.NewScanner(addresses)
	for lines.Scan() {
		var found map[string]interface{}
		if err := reader.Lookup(net.ParseIP(lines.Text()), &found); err != nil {
			panic(err)
		}
		if found == nil {
			fmt.Println("none")
			continue
		}
		text, err := json.Marshal(found)
		if err != nil {
			panic(err)
		}
		fmt.Println(string(text))
	}
}
X
    GO111MODULE=off GOPATH=$gopath GOCACHE=$work/cache go run reader.go > printed \
        || fail "maxminddb for Go refuses the file"
    agrees 'maxminddb for Go'
else
    lacks 'maxminddb for Go' 'golang-go and golang-github-oschwald-maxminddb-golang-dev'
fi

[ "$readers" -gt 0 ] || skip "no other reader is at hand"
verdict
