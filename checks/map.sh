#!/usr/bin/env bash
# contrib/mmdb-map: its table beside the census, its cells beside a curve that is made here in
# another way, what changed beside what is known, how far its colours are apart for those who see
# fewer of them, its size at worst, files that are made to break it, and how a real browser shows it
# (Debian's chromium, where it is there). The census is of 60,000 lines, with ALL=1 of 300,000.
set -u
cd "$(dirname "${BASH_SOURCE[0]}")/.." || exit 1
map=$PWD/contrib/mmdb-map
made=$PWD/bench/statistics.awk
. checks/with_program.bash
/usr/bin/python3 -c 'import maxminddb.decoder' 2> /dev/null \
    || skip "there is no maxminddb for Python (Debian's python3-maxminddb)"

# draws PAGE WORDS..: the page is made within limits, whole, small, and without a script or anything
# from elsewhere.
draws() {
    local page=$1
    shift
    (ulimit -v 600000 && ulimit -t 100 && exec "$map" "$@") > "$page" 2> told \
        || fail "'$*' ends with status $?: $(tail -n 1 told)"
    [ ! -s told ] || fail "'$*' says '$(cat told)'"
    [ "$(wc -c < "$page")" -le 2000000 ] || fail "the page of '$*' has $(wc -c < "$page") bytes"
    grep -qiE '<script|<link|<img|<iframe|<object|https?:|url\(|@import|src=|href=| on[a-z]+=' \
        "$page" && fail "the page of '$*' has more in it than a page of this kind"
    python3 page.py "$page" || fail "the page of '$*' is not whole"
}

cat > page.py <<'X'
"""A page whose every tag that needs one has its end; `cells` gives the colour of each cell of its
first map or second one."""
import html.parser, re, sys

class Whole(html.parser.HTMLParser):
    def __init__(self):
        super().__init__()
        self.open, self.texts, self.paths, self.rows = [], [], [], []
    def handle_starttag(self, tag, attributes):
        if tag == "svg": self.paths.append([])
        if tag == "tr": self.rows.append([])
        if tag == "path": self.paths[-1].append(dict(attributes))
        if tag not in ("meta",) and not self.get_starttag_text().endswith("/>"):
            self.open.append(tag)
    def handle_endtag(self, tag):
        assert tag in ("path",) or self.open.pop() == tag, tag
    def handle_data(self, data):
        if self.open and self.open[-1] in ("td", "th"): self.rows[-1].append(data)

def parsed(name):
    page = Whole()
    page.feed(open(name, encoding="utf-8").read())
    page.close()
    assert not page.open, page.open
    return page

def cells(page, which):
    colours = [["#ffffff"] * 256 for _ in range(256)]
    for path in page.paths[which]:
        if path.get("class") == "grid": continue
        for x, y, count in re.findall(r"M(\d+) (\d+)h(\d+)", path["d"]):
            for at in range(int(x), int(x) + int(count)): colours[int(y)][at] = path["stroke"]
    return colours

if __name__ == "__main__": parsed(sys.argv[1])
X

# The table is the census.
lines=60000
[ -z "${ALL:-}" ] || lines=300000
awk -v lines="$lines" -f "$made" > s.txt
printf 'epoch 1700000000\nstats made s.txt\nemit out.mmdb\n' > job
"$program" build job > printed || fail "the job ends with status $?"
draws page.html out.mmdb
"$program" census job | sed -n 's/^\([A-Z][A-Z]\) \([0-9]*\) .*/\1 \2/p' | sort > wanted
cat > rows.py <<'X'
"""The rows of the table of countries."""
import sys, page
for row in page.parsed(sys.argv[1]).rows:
    if len(row) >= 3 and row[0] != "country":
        numbers = [cell.replace(",", "") for cell in row[3:] if cell]
        print(row[0], row[1].replace(",", ""), *numbers)
X
python3 rows.py page.html | sort | cmp -s - wanted || fail "the table is not the census"

# A cell's colour, by the key: 4,000 /16 of nine countries at random, and /17 beside them that are
# less than half of a cell.
cat > known.py <<'X'
"""Statistics of cells at random, and where each cell is: a curve of four smaller ones, made from
the top."""
import random, sys
random.seed(20240304)
codes = {cell: random.choice("DE FR IT US CH AT JP BR NL".split())
         for cell in random.sample(range(65536), 4000)}

def curve(cells, x, y, right, down):
    """The cells go from one corner of a square along its first side to the other end of it."""
    if len(cells) == 1:
        yield cells[0], x, y
        return
    quarter = len(cells) // 4
    half = abs(right[0] + right[1]) // 2
    (a, b), (c, d) = right, down
    step = lambda v: (v[0] // 2, v[1] // 2)
    one = lambda v: ((v[0] > 0) - (v[0] < 0), (v[1] > 0) - (v[1] < 0))
    r, dn, r1, d1 = step(right), step(down), one(right), one(down)
    yield from curve(cells[:quarter], x, y, dn, r)
    yield from curve(cells[quarter:2 * quarter], x + dn[0], y + dn[1], r, dn)
    yield from curve(cells[2 * quarter:3 * quarter], x + dn[0] + r[0], y + dn[1] + r[1], r, dn)
    yield from curve(cells[3 * quarter:], x + 2 * r[0] - r1[0] + dn[0] - d1[0],
                     y + 2 * r[1] - r1[1] + dn[1] - d1[1],
                     (-dn[0], -dn[1]), (-r[0], -r[1]))

# From the top left to the top right, by way of the bottom.
places = {cell: (x, y) for cell, x, y in curve(range(65536), 0, 0, (256, 0), (0, 256))}
if len(sys.argv) == 1:
    for cell, code in sorted(codes.items()):
        print(f"x|{code}|ipv4|{cell >> 8}.{cell & 255}.0.0|65536||allocated")
    for cell in (set(range(65536)) - set(codes)):
        if cell % 50 == 0: print(f"x|SE|ipv4|{cell >> 8}.{cell & 255}.1.0|32512||allocated")
else:
    import page
    found = page.parsed(sys.argv[1])
    key = {row[0].strip(): None for row in found.rows[:9]}
    text = open(sys.argv[1], encoding="utf-8").read()
    import re
    key = dict((name, colour) for colour, name in
               re.findall(r'background:(#[0-9a-f]{6})"></i> ([^<]*)<', text))
    drawn = page.cells(found, 0)
    assert sorted(places.values()) == [(x, y) for x in range(256) for y in range(256)]
    for at in range(65535):
        (x, y), (next_x, next_y) = places[at], places[at + 1]
        assert abs(x - next_x) + abs(y - next_y) == 1
    for cell, (x, y) in places.items():
        wanted = key["none"] if cell not in codes else key.get(codes[cell], key["all others"])
        assert drawn[y][x] == wanted, (cell, x, y, drawn[y][x], wanted)
X
python3 known.py > cells.txt
printf 'epoch 1700000000\nstats x cells.txt\nemit cells.mmdb\n' > job
"$program" build job > printed || fail "the job of cells ends with status $?"
draws cells.html cells.mmdb
python3 known.py cells.html 2> told || fail "the map's cells are others: $(tail -n 1 told)"

# What changed: a country more, one less, one to another, and a city alone.
printf '%s\n' 'x|DE|ipv4|10.0.0.0|65536||allocated' 'x|FR|ipv4|10.1.0.0|256||allocated' \
    'x|US|ipv4|10.2.0.0|4096||allocated' > old.txt
printf '%s\n' 'x|DE|ipv4|10.0.0.0|65536||allocated' 'x|JP|ipv4|10.2.0.0|4096||allocated' \
    'x|JP|ipv4|10.3.0.0|65536||allocated' > new.txt
echo '10.0.0.0/24,set,DE,DE-BE,Berlin' > own.csv
printf '%s\n' 'epoch 1700000000' 'stats x old.txt' 'emit old.mmdb' 'stats x new.txt' \
    'overrides own.csv' 'emit new.mmdb' > job
"$program" build job > printed || fail "the job of changes ends with status $?"
draws changes.html new.mmdb old.mmdb
grep -qF '<p>69,888 addresses have another country, and 256 another record of the same one.</p>' \
    changes.html \
    || fail "what changed is told as '$(grep 'another country' changes.html)'"
[ "$(python3 rows.py changes.html)" = 'JP 69632 +69632
DE 65536
FR 0 -256
US 0 -4096' ] || fail "the table of changes is '$(python3 rows.py changes.html)'"
for row in 'none → JP</td><td>65,536' 'US → JP</td><td>4,096' 'FR → none</td><td>256'; do
    grep -qF "<td>$row</td>" changes.html || fail "the page does not have '$row'"
done
python3 - <<'X' 2> told || fail "the map of changes is another one: $(tail -n 1 told)"
import page
drawn = page.cells(page.parsed("changes.html"), 1)
assert sum(colour != "#ffffff" for row in drawn for colour in row) == 3
X

# Two files that have no two cells alike, and as many changes.
awk 'BEGIN {
    split("DE FR IT US CH AT JP", code, " ")
    for (cell = 0; cell < 65536; cell++) for (half = 0; half < 2; half++) {
        name = code[1 + (cell * 5 + half + int(cell / 7)) % 7]
        printf "x|%s|ipv4|%d.%d.%d.0|32768||allocated\n", name, cell / 256, cell % 256, 128 * half
    }
}' > s.txt
sed -e 's/|DE|/|xx|/; s/|FR|/|DE|/; s/|xx|/|FR|/' \
    -e '40000,90000s/|US|/|BR|/; s/|ipv4|[0-9]*[13579]\./&/' s.txt > t.txt
printf 'epoch 1700000000\nstats x s.txt\nemit a.mmdb\nstats x t.txt\nemit b.mmdb\n' > job
"$program" build job > printed || fail "the job of many cells ends with status $?"
draws many.html a.mmdb b.mmdb

# Names of countries that are none: long, very many, and with what a browser would act on.
cat > names.py <<'X'
"""Files of 60,000 records, whose country is a made text."""
import struct
def text(word):
    raw = word.encode()
    return (bytes([0x40 | len(raw)]) if len(raw) < 29 else bytes([0x5d, len(raw) - 29])) + raw
def number(value): raw = value.to_bytes(8, "big").lstrip(b"\0"); return bytes([len(raw), 2]) + raw
def write(name, words):
    data, starts = bytearray(), []
    for word in words:
        starts.append(len(data))
        data += b"\xe1" + text("country") + b"\xe1" + text("iso_code") + text(word)
    order, level = [], starts
    while len(level) > 1: level = [(level[i], level[i + 1]) for i in range(0, len(level) - 1, 2)]
    order = [level[0]]
    for one in order: order += [half for half in one if isinstance(half, tuple)]
    at = {id(one): i for i, one in enumerate(order)}
    tree = b"".join((at[id(half)] if isinstance(half, tuple) else half + len(order) + 16)
                    .to_bytes(4, "big") for one in order for half in one)
    about = text("binary_format_major_version") + b"\xa1\x02" + text("ip_version") + b"\xa1\x04" \
        + text("node_count") + number(len(order)) + text("record_size") + b"\xa1\x20" \
        + text("build_epoch") + number(1700000000)
    open(name, "wb").write(tree + bytes(16) + data + b"\xab\xcd\xefMaxMind.com\xe5" + about)
write("names", [f"{i} is a country" for i in range(32768)])
write("tags", ["<script>alert(1)</script>", "</td></table>", "&amp;\"'>", "\u202eDE"] * 64)
X
python3 names.py || fail "no made files"
draws names.html names
grep -qF '<p>And ' names.html || fail "the table of very many countries has all of them"
draws tags.html tags
draws tags.html names tags
printf 'no file' > broken
for words in '' 'a b c' '--nothing' 'a --all'; do
    # shellcheck disable=SC2086
    "$map" $words > printed 2> told
    [ $? -eq 2 ] && [ ! -s printed ] || fail "the words '$words' end otherwise"
done
for words in broken 'tags broken' missing; do
    # shellcheck disable=SC2086
    "$map" $words > printed 2> told
    [ $? -eq 1 ] && [ ! -s printed ] || fail "'$words' end otherwise"
done

# Colours: any two are at least 15 apart (CIE 1976), as all see them and as those do who lack one
# kind of cones (by the matrices of Machado, Oliveira and Fernandes, 2009). A difference of 2.3 is
# just seen.
cat > colours.py <<'X'
import ast, itertools, sys
kinds = {
    "all": ((1, 0, 0), (0, 1, 0), (0, 0, 1)),
    "no red": ((0.152286, 1.052583, -0.204868), (0.114503, 0.786281, 0.099216),
               (-0.003882, -0.048116, 1.051998)),
    "no green": ((0.367322, 0.860646, -0.227968), (0.280085, 0.672501, 0.047413),
                 (-0.011820, 0.042940, 0.968881)),
    "no blue": ((1.255528, -0.076749, -0.178779), (-0.078411, 0.930809, 0.147602),
                (0.004733, 0.691367, 0.303900))}

def lab(colour, kind):
    light = [int(colour[at:at + 2], 16) / 255 for at in (1, 3, 5)]
    light = [one / 12.92 if one <= .04045 else ((one + .055) / 1.055) ** 2.4 for one in light]
    red, green, blue = (min(1, max(0, sum(map(lambda pair: pair[0] * pair[1], zip(row, light)))))
                        for row in kind)
    x = (.4124564 * red + .3575761 * green + .1804375 * blue) / .95047
    y = .2126729 * red + .7151522 * green + .0721750 * blue
    z = (.0193339 * red + .1191920 * green + .9503041 * blue) / 1.08883
    bent = [one ** (1 / 3) if one > 216 / 24389 else (24389 / 27 * one + 16) / 116
            for one in (x, y, z)]
    return 116 * bent[1] - 16, 500 * (bent[0] - bent[1]), 200 * (bent[1] - bent[2])

names = {}
for node in ast.parse(open(sys.argv[1]).read()).body:
    if isinstance(node, ast.Assign):
        left = node.targets[0]
        several = isinstance(left, ast.Tuple)
        for name, value in zip(left.elts, node.value.elts) if several else [(left, node.value)]:
            if name.id in ("COLOURS", "OTHERS", "NONE", "CHANGES"):
                names[name.id] = ast.literal_eval(value)
both = names["COLOURS"] + (names["OTHERS"], names["NONE"]), names["CHANGES"] + (names["NONE"],)
for shown in both:
    for name, kind in kinds.items():
        for one, other in itertools.combinations(shown, 2):
            apart = sum((a - b) ** 2 for a, b in zip(lab(one, kind), lab(other, kind))) ** .5
            assert apart >= 15, \
                f"{one} and {other} are {apart:.1f} apart for eyes of the kind: {name}"
X
python3 colours.py "$map" 2> told || fail "colours: $(tail -n 1 told)"

# In a browser: the picture has each colour of the key where its cells are.
if needs chromium chromium; then
    printf '%s\n' 'x|DE|ipv4|0.0.0.0|1073741824||allocated' \
        'x|FR|ipv4|64.0.0.0|1073741824||allocated' \
        'x|JP|ipv4|192.0.0.0|536870912||allocated' > s.txt
    printf 'epoch 1700000000\nstats x s.txt\nemit big.mmdb\n' > job
    "$program" build job > printed && draws big.html big.mmdb
    # A browser that cannot be started here (no room, no sandbox) is no fault of the page.
    if ! HOME=$work timeout 300 chromium --headless --no-sandbox --disable-gpu \
        --disable-dev-shm-usage --hide-scrollbars --user-data-dir="$work/browser" \
        --force-device-scale-factor=0.5 --window-size=1200,1000 \
        --screenshot="$work/page.png" "file://$work/big.html" \
        > told 2>&1 || [ ! -s page.png ]; then
        part "the browser, which does not start here: $(tail -n 1 told)"
    else
        cat > shown.py <<'X'
import struct, sys, zlib
data, at, packed = open("page.png", "rb").read(), 8, b""
while at < len(data):
    size, kind = struct.unpack(">I4s", data[at:at + 8])
    body = data[at + 8:at + 8 + size]
    if kind == b"IHDR": width, height, bits, colour = struct.unpack(">IIBB", body[:10])
    if kind == b"IDAT": packed += body
    at += 12 + size
each = {2: 3, 6: 4}[colour]
assert bits == 8
raw, rows, last = zlib.decompress(packed), [], bytes(width * each)
for y in range(height):
    start = y * (width * each + 1)
    kind, line = raw[start], bytearray(raw[start + 1:start + 1 + width * each])
    for i in range(len(line)):
        a, b, c = line[i - each] if i >= each else 0, last[i], last[i - each] if i >= each else 0
        p = a + b - c
        paeth = min((abs(p - a), 0, a), (abs(p - b), 1, b), (abs(p - c), 2, c))[2]
        line[i] = line[i] + (0, a, b, (a + b) // 2, paeth)[kind] & 255
    rows.append(line); last = line
def pixel(x, y): return "#" + rows[y][x * each:x * each + 3].hex()
# The map is a square of many pixels of the first two colours, left and below the words: a quarter
# of it each, down its left.
colours = {}
for y in range(0, height):
    for x in range(0, width): colours.setdefault(pixel(x, y), []).append((x, y))
def box(colour):
    xs, ys = zip(*[(x, y) for x, y in colours[colour] if x < 395])
    return min(xs), max(xs), min(ys), max(ys)
first, second, third = box("#00539f"), box("#e69f00"), box("#008e66")
side = first[1] - first[0] + 1
assert 165 < side < 200, side
places = {"#00539f": (first[0] + 5, first[2] + side - 5),
          "#e69f00": (first[0] + 5, first[2] + 2 * side - 5),
          "#008e66": (first[0] + 2 * side - 5, first[2] + side - 5)}
for name, (x, y) in places.items():
    assert pixel(x, y) == name, (name, x, y, pixel(x, y))
assert pixel(first[0] + 2 * side - 10, first[2] + 10) == "#ffffff"
assert len(colours["#00539f"]) > 25000 and len(colours["#e69f00"]) > 25000
X
        python3 shown.py 2> told || fail "the browser shows something else: $(tail -n 1 told)"
    fi
fi

verdict
