#!/usr/bin/env python3
"""Makes a world of sources that looks like the registries' own, and jobs over it:

    python3 bench/make_world.py [--seed SEED] [--scale SCALE] FOLDER

A scale of 1 gives about 300,000 lines of statistics, a dump of about 227,000 objects (78 MB, in
Latin-1), 400 feeds with about 355,000 lines in all, and 2,000 overrides; 5 about five times that.
All follows from the seed. What it writes into the folder:

  ripe.db nro.txt feeds/f00000.csv .. over.csv  the sources
  nro.day.txt feeds/fNNNNN.day.csv              the same a day later, a row in a thousand changed
  feeds/fNNNNN.one.csv                          one feed with one changed line
  stats.job         the statistics alone, and one emit (out.mmdb)
  world.job         all sources, and one emit (world.mmdb)
  world-report.job  the same with `report` before the emit
  world-one.job     world.job, the feed with one changed line, and an emit (world2.mmdb)
  world-day.job     world.job, what changed in the day, and an emit (world2.mmdb)
  fresh-one.job fresh-day.job  fresh builds of what then is in force (world2.mmdb)
"""
import argparse, os, random

ap = argparse.ArgumentParser(
    description=__doc__, formatter_class=argparse.RawDescriptionHelpFormatter
)
ap.add_argument("--seed", type=int, default=1)
ap.add_argument("--scale", type=float, default=1.0)
ap.add_argument("outdir")
A = ap.parse_args()
R = random.Random(A.seed)
X = A.scale
os.makedirs(os.path.join(A.outdir, "feeds"), exist_ok=True)
P = lambda n: os.path.join(A.outdir, n)

RIRS = ["arin", "ripencc", "apnic", "lacnic", "afrinic"]
CC = {
    "arin": [("US", 88), ("CA", 10), ("PR", 1), ("JM", 1)],
    "ripencc": [
        ("DE", 13),
        ("GB", 12),
        ("RU", 14),
        ("FR", 7),
        ("NL", 9),
        ("IT", 6),
        ("PL", 6),
        ("UA", 5),
        ("ES", 5),
        ("SE", 4),
        ("CH", 3),
        ("IR", 4),
        ("TR", 3),
        ("CZ", 3),
        ("RO", 3),
        ("AT", 2),
        ("NO", 2),
        ("DK", 2),
        ("FI", 2),
        ("BG", 2),
        ("GR", 1),
        ("SA", 1),
        ("IL", 1),
        ("EU", 1),
    ],
    "apnic": [
        ("CN", 22),
        ("JP", 12),
        ("AU", 16),
        ("IN", 16),
        ("KR", 5),
        ("ID", 9),
        ("HK", 6),
        ("TW", 3),
        ("SG", 4),
        ("VN", 3),
        ("TH", 2),
        ("NZ", 3),
        ("BD", 4),
        ("PH", 2),
    ],
    "lacnic": [("BR", 70), ("AR", 9), ("CO", 6), ("CL", 5), ("MX", 5), ("EC", 3), ("PE", 2)],
    "afrinic": [("ZA", 45), ("NG", 15), ("KE", 10), ("EG", 8), ("TZ", 6), ("GH", 6), ("MA", 5)],
}


def pick(table):
    names, w = zip(*table)
    cum, t = [], 0
    for v in w:
        t += v
        cum.append(t)
    return lambda: R.choices(names, cum_weights=cum)[0]


CCPICK = {r: pick(CC[r]) for r in RIRS}

# ---- places: Zipf cities
SYL = [
    "ber",
    "lin",
    "mün",
    "chen",
    "stad",
    "ham",
    "burg",
    "ville",
    "saint",
    "wor",
    "ton",
    "ford",
    "gra",
    "nov",
    "sk",
    "ka",
    "zü",
    "rich",
    "kö",
    "ln",
    "são",
    "pau",
    "lo",
    "par",
    "is",
    "ma",
    "drid",
    "ro",
    "me",
    "os",
    "hel",
    "sin",
    "ki",
    "pra",
    "gue",
    "wien",
    "bu",
    "da",
    "pest",
    "ath",
    "ens",
]


def word():
    return "".join(R.choice(SYL) for _ in range(R.randint(2, 3))).capitalize()


ALLCC = [c for r in RIRS for c, _ in CC[r]]
CITIES = {}
for c in ALLCC:
    n = R.randint(60, 400)
    regs = [
        "%s-%s"
        % (c, "".join(R.choice("ABCDEFGHIJKLMNOPQRSTUVWXYZ") for _ in range(R.randint(2, 3))))
        for _ in range(R.randint(4, 30))
    ]
    CITIES[c] = [
        (
            c,
            R.choice(regs),
            word() + (" " + word() if R.random() < 0.15 else ""),
            "%05d" % R.randint(1000, 99999) if R.random() < 0.3 else "",
        )
        for _ in range(n)
    ]


def place(c):
    L = CITIES.get(c) or CITIES["DE"]
    return L[int(len(L) * R.random() ** 3)]


def csv_field(s):
    return '"%s"' % s.replace('"', '""') if "," in s or '"' in s else s


# ---- NRO extended statistics
V4SIZE = pick(
    [
        (256, 36),
        (512, 12),
        (768, 0.7),
        (1024, 18),
        (1280, 0.2),
        (1536, 0.4),
        (2048, 10),
        (2560, 0.2),
        (3072, 0.4),
        (4096, 8),
        (5120, 0.2),
        (8192, 6),
        (16384, 3),
        (32768, 1.8),
        (65536, 3.4),
        (131072, 0.8),
        (262144, 0.5),
        (524288, 0.25),
        (1048576, 0.15),
        (2097152, 0.06),
        (4194304, 0.03),
    ]
)
V6LEN = pick(
    [
        (32, 45),
        (29, 15),
        (48, 28),
        (36, 1),
        (40, 2),
        (44, 2),
        (35, 0.5),
        (33, 0.5),
        (47, 0.5),
        (46, 0.7),
        (28, 0.5),
        (24, 0.2),
        (31, 0.6),
        (30, 0.6),
        (22, 0.05),
    ]
)
V6BASE = {"arin": 0x2600, "ripencc": 0x2A00, "apnic": 0x2400, "lacnic": 0x2800, "afrinic": 0x2C00}


def v4(a):
    return "%d.%d.%d.%d" % (a >> 24, a >> 16 & 255, a >> 8 & 255, a & 255)


def v6(a):  # RFC 5952
    g = [a >> (112 - 16 * i) & 0xFFFF for i in range(8)]
    best, run, i = (0, -1), 0, 0
    while i < 8:
        j = i
        while j < 8 and g[j] == 0:
            j += 1
        if j - i > best[0]:
            best = (j - i, i)
        i = max(j, i + 1)
    if best[0] >= 2:
        return (
            ":".join("%x" % x for x in g[: best[1]])
            + "::"
            + ":".join("%x" % x for x in g[best[1] + best[0] :])
        )
    return ":".join("%x" % x for x in g)


def date():
    return "%04d%02d%02d" % (R.randint(1990, 2024), R.randint(1, 12), R.randint(1, 28))


def stamp():
    return "%04d-%02d-%02dT%02d:%02d:%02dZ" % (
        R.randint(2003, 2024),
        R.randint(1, 12),
        R.randint(1, 28),
        R.randint(0, 23),
        R.randint(0, 59),
        R.randint(0, 59),
    )


T = int(300000 * X)
n4, n6, na = int(T * 0.5), int(T * 0.2), int(T * 0.3)
rows, alloc4, alloc6 = {r: ([], [], []) for r in RIRS}, [], []


def status():
    x = R.random()
    return (
        "allocated"
        if x < 0.62
        else "assigned"
        if x < 0.93
        else "available"
        if x < 0.97
        else "reserved"
    )


def row(r, typ, start, val, c, st):
    if st in ("available", "reserved"):
        return "%s|%s|%s|%s|%s||%s|" % (r, "ZZ" if R.random() < 0.8 else "", typ, start, val, st)
    return "%s|%s|%s|%s|%s|%s|%s|%08x" % (r, c, typ, start, val, date(), st, R.getrandbits(32))


eights = [e for e in range(1, 224) if e not in (10, 127)]
rirpick = pick([("arin", 45), ("ripencc", 21), ("apnic", 22), ("lacnic", 8), ("afrinic", 4)])
per8, made = n4 / len(eights), 0
for k, e in enumerate(eights):
    r, pos, end, want = rirpick(), e << 24, (e + 1) << 24, int(per8 * (k + 1)) - made
    while want > 0 and pos < end:
        size = V4SIZE() if X <= 1 or R.random() < 1 / X else 256 << R.randint(0, 2)
        al = size if size & (size - 1) == 0 else 256
        at = (pos + al - 1) // al * al
        if R.random() < 0.15:
            at += al * R.randint(1, 2)
        if at + size > end:
            size, at = 256, pos
            if at + size > end:
                break
        c, st = CCPICK[r](), status()
        rows[r][1].append(row(r, "ipv4", v4(at), size, c, st))
        if r == "ripencc" and st in ("allocated", "assigned"):
            alloc4.append((at, size, c))
        pos, want, made = at + size, want - 1, made + 1
for r, share in (
    ("arin", 0.25),
    ("ripencc", 0.35),
    ("apnic", 0.25),
    ("lacnic", 0.12),
    ("afrinic", 0.03),
):
    pos = V6BASE[r] << 112
    for _ in range(int(n6 * share)):
        ln = V6LEN()
        size = 1 << (128 - ln)
        at = (pos + size - 1) // size * size + (size * R.randint(1, 7) if R.random() < 0.5 else 0)
        c, st = CCPICK[r](), status()
        rows[r][2].append(row(r, "ipv6", v6(at), ln, c, st))
        if r == "ripencc" and st in ("allocated", "assigned"):
            alloc6.append((at, ln, c))
        pos = at + size
asn = 1
for _ in range(na):
    r, k = rirpick(), 1 if R.random() < 0.97 else R.randint(2, 60)
    rows[r][0].append(row(r, "asn", str(asn), k, CCPICK[r](), status()))
    asn += k + R.randint(0, 3)
head = ["2|nro|20240301|%d|19700101|20240301|+0000" % (made + n6 + na)]
for i, t in enumerate(("asn", "ipv4", "ipv6")):
    head.append("nro|*|%s|*|%d|summary" % (t, sum(len(rows[r][i]) for r in RIRS)))
body = [x for r in RIRS for i in range(3) for x in rows[r][i]]
open(P("nro.txt"), "w").write("\n".join(head + body) + "\n")
day = list(body)
for _ in range(max(1, len(day) // 1000)):  # a day later: some rows change country, some go
    i = R.randrange(len(day))
    f = day[i].split("|")
    if len(f) == 8 and f[2] != "asn" and f[6] in ("allocated", "assigned"):
        f[1] = CCPICK[f[0]]()
        day[i] = "|".join(f)
    elif R.random() < 0.2:
        day[i] = ""
open(P("nro.day.txt"), "w").write("\n".join(head + [x for x in day if x]) + "\n")

# ---- organisations and feeds
K = max(20, int(400 * X))
norg = max(40, int(9000 * X))
urls = [
    "https://%s.example/%s.csv"
    % (
        R.choice(["geo", "geofeed", "www.isp", "noc"]) + "-%05d" % i,
        R.choice(["geofeed", "geo/feed", "g", "rfc8805"]),
    )
    for i in range(K)
]
feeds = [[] for _ in range(K)]


def org_of():
    return int(norg * R.random() ** 3)


def feed_of(org):  # the biggest organisations have feeds more often
    return org if org < K else None


# ---- the dump
out = open(P("ripe.db"), "wb")
buf, nobj = [
    "% This is a synthetic extract made by make_world.py\n% Not data of any registry\n\n"
], 0
JUNK = [
    "Abuse contact: abuse@%s",
    "********************************",
    "* Please send reports to %s *",
    "INFRA-AW",
    "Assignment for customer %s",
    "see http://%s/whois for details",
    "Geolocation: %s",
]
DESCR = [
    "Customer network",
    "Broadband pool",
    "Münchner Netze GmbH",
    "Hosting",
    "DSL-Einwahl",
    "Téléphonie d'entreprise",
    "Office",
    "Server farm # 3",
    "Mobile CGN",
    "Wireless backhaul",
]
STAT4, STAT6 = ["ASSIGNED PA", "SUB-ALLOCATED PA", "ASSIGNED PI", "LEGACY"], [
    "ASSIGNED",
    "AGGREGATED-BY-LIR",
    "ALLOCATED-BY-LIR",
]


def flush():
    out.write("".join(buf).encode("latin-1"))
    buf.clear()


def inet(cls, key, c, org, st, ref):
    """one inetnum or inet6num object; ref is None or a URL"""
    global nobj
    h = R.getrandbits(20)
    o = ["%-16s%s\n" % (cls + ":", key), "netname:        NET-%05X\n" % h]
    for _ in range(R.choice((0, 1, 1, 2))):
        o.append("descr:          %s\n" % R.choice(DESCR))
    if R.random() < 0.03:
        o.append(
            "descr:          first line\n+               continued line\n"
            "                and one more\n"
        )
    o.append("country:        %s\n" % c)
    if R.random() < 0.5:
        o.append("org:            ORG-%05d-RIPE\n" % org)
    if ref and R.random() < 0.5:
        x = R.random()
        o.append("geofeed:        %s%s\n" % (ref, " # geofeed" if x < 0.02 else ""))
        if x > 0.97:
            o.append("remarks:        Geofeed https://old.example/%d.csv\n" % h)
        ref = None
    o.append(
        "admin-c:        AA%d-RIPE\ntech-c:         TT%d-RIPE\nstatus:         %s\n"
        % (h % 9999, h % 7777, st)
    )
    if R.random() < 0.3:
        o.append(
            "remarks:        %s\n" % (R.choice(JUNK).replace("%s", "isp%d.example" % (h % 1000)))
        )
    if ref:
        x = R.random()
        if x < 0.01:
            o.append(
                "remarks:        Geofeed %s\nremarks:        Geofeed https://other.example/y.csv\n"
                % ref
            )
        elif x < 0.02:
            o.append("remarks:        Geofeed %s\n" % ref.replace("https", "http"))
        else:
            o.append("remarks:        Geofeed %s\n" % ref)
    o.append("mnt-by:         MNT-%05d\n" % org)
    if R.random() < 0.4:
        o.append("mnt-lower:      MNT-%05d\nmnt-routes:     MNT-%05d\n" % (org, org))
    x = R.random()
    o.append(
        "created:        %s\nlast-modified:  %s\nsource:         RIPE\n\n"
        % (stamp(), "yesterday" if x < 0.002 else stamp())
    )
    buf.extend(o)
    nobj += 1


def junk():
    global nobj
    k, h = R.randrange(5), R.getrandbits(24)
    if k == 0:
        buf.append(
            "aut-num:        AS%d\nas-name:        NAME-%X\n" % (h % 400000, h)
            + "".join(
                "import:         from AS%d accept ANY\nexport:         to AS%d announce AS%d\n"
                % (h % 999 + i, h % 999 + i, h % 400000)
                for i in range(R.randint(1, 8))
            )
        )
    elif k == 1:
        buf.append(
            "route:          %s/24\ndescr:          route\norigin:         AS%d\n"
            % (v4(h << 8 & 0xDFFFFF00), h % 400000)
        )
    elif k == 2:
        buf.append(
            "person:         Name Removed\naddress:        Straße %d\naddress:        ****\n"
            "phone:          +49 000 %d\nnic-hdl:        AA%d-RIPE\n" % (h % 200, h, h)
        )
    elif k == 3:
        buf.append(
            "organisation:   ORG-%05d-RIPE\norg-name:       Org %d\norg-type:       LIR\n"
            "address:        somewhere\ngeofeed:        https://not.example/used.csv\n"
            % (h % norg, h)
        )
    else:
        buf.append(
            "domain:         %d.%d.in-addr.arpa\nnserver:        ns1.example\n"
            "zone-c:         ZZ%d-RIPE\n" % (h & 255, h >> 8 & 255, h)
        )
    buf.append("mnt-by:         MNT-%05d\nsource:         RIPE\n\n" % (h % norg))
    nobj += 1


def entries4(f, at, size, c):
    """lines of a feed for an IPv4 allocation"""
    L, step = feeds[f], max(64, size // 128)
    for a in range(at, at + size, step):
        x = R.random()
        if x < 0.15:
            continue
        ln = 32 - (step.bit_length() - 1)
        if a % step or a + step > at + size:
            ln = 26
        p = place(c if R.random() < 0.93 else R.choice(ALLCC))
        L.append((v4(a) + "/%d" % ln, p))
        if x > 0.9:
            for _ in range(R.randint(1, 4)):
                m = R.randint(25, 28)
                L.append(
                    (
                        v4(a + (R.randrange(256) >> (32 - m) << (32 - m))) + "/%d" % m,
                        place(c) if R.random() < 0.97 else None,
                    )
                )


def entries6(f, at, ln, c):
    L, m = feeds[f], min(64, ln + R.choice((4, 8, 8, 12, 16)))
    for _ in range(R.randint(1, 24)):
        a = at + (R.getrandbits(m - ln) << (128 - m) if m > ln else 0)
        L.append((v6(a) + "/%d" % m, place(c if R.random() < 0.93 else R.choice(ALLCC))))


for at, size, c in alloc4:
    org = org_of()
    f = feed_of(org)
    ref = urls[f] if f is not None and R.random() < 0.85 else None
    inet("inetnum", "%s - %s" % (v4(at), v4(at + size - 1)), c, org, "ALLOCATED PA", ref)
    if ref:
        entries4(f, at, size, c)
    pos = at
    for _ in range(min(90, int(R.expovariate(1 / 14)))):
        s = 1 << R.choice((3, 3, 4, 5, 6, 8, 8, 8, 9, 10))
        pos = (pos + s - 1) // s * s + s * R.choice((0, 0, 0, 1, 3))
        if pos + s > at + size:
            break
        lo, hi = pos, pos + s - 1
        if R.random() < 0.05:
            hi -= R.randint(1, s // 2)
        sub = (
            urls[R.randrange(K)]
            if R.random() < 0.012
            else urls[f]
            if f is not None and R.random() < 0.02
            else None
        )
        inet(
            "inetnum",
            "%s - %s" % (v4(lo), v4(hi)),
            c,
            org if R.random() < 0.8 else org_of(),
            R.choice(STAT4),
            sub,
        )
        if sub and sub != (urls[f] if f is not None else None) and R.random() < 0.7:
            feeds[urls.index(sub)].append((v4(lo) + "/%d" % (32 - s.bit_length() + 1), place(c)))
        if s >= 256 and R.random() < 0.08:
            inet("inetnum", "%s - %s" % (v4(lo + 64), v4(lo + 127)), c, org, "ASSIGNED PA", None)
        pos += s
    while R.random() < 0.6:
        junk()
    if len(buf) > 20000:
        flush()
for at, ln, c in alloc6:
    org = org_of()
    f = feed_of(org)
    ref = urls[f] if f is not None and R.random() < 0.85 else None
    inet("inet6num", v6(at) + "/%d" % ln, c, org, "ALLOCATED-BY-RIR", ref)
    if ref:
        entries6(f, at, ln, c)
    if ln < 48:
        for i in range(min(40, int(R.expovariate(1 / 3)))):
            inet(
                "inet6num",
                v6(at + (i + 1 << 80)) + "/48",
                c,
                org,
                R.choice(STAT6),
                urls[R.randrange(K)] if R.random() < 0.01 else None,
            )
    while R.random() < 0.5:
        junk()
    if len(buf) > 20000:
        flush()
flush()
out.close()


# ---- feed files
def line(e):
    pre, p = e
    return (
        "%s,,,,\n" % pre
        if p is None
        else "%s,%s,%s,%s,%s\n" % (pre, p[0], p[1], csv_field(p[2]), p[3])
    )


BAD = [
    "10.0.0.1/8,DE,,,\n",
    "not a prefix,DE,,,\n",
    ",DE,,,\n",
    "192.0.2.0/24,DEU,,,\n",
    "192.0.2.0/24,DE,DE_BY,,\n",
    '198.51.100.0/24,DE,,"open,\n',
    "::1.2.3.0/120,DE,,,\n",
]


def feed_text(L):
    t = ["# geofeed made by make_world.py\n"]
    for e in L:
        t.append(line(e))
    return t


total, dayset = 0, set(R.sample(range(K), max(1, K // 100)))
nl = []
for f in range(K):
    L = feeds[f]
    for _ in range(len(L) // 400):
        L.append((v4(R.choice(eights) << 24 | R.getrandbits(16) << 8) + "/24", place("DE")))  # F09
    if R.random() < 0.5:
        R.shuffle(L)
    t = feed_text(L)
    if len(t) > 10 and R.random() < 0.4:
        t[5:5] = R.sample(BAD, 2)
    if len(t) > 20 and R.random() < 0.2:
        t.append(t[7])  # F07
    crlf = R.random() < 0.3
    enc = lambda t: (("".join(t)).replace("\n", "\r\n") if crlf else "".join(t)).encode("utf-8")
    bom = b"\xef\xbb\xbf" if R.random() < 0.05 else b""
    open(P("feeds/f%05d.csv" % f), "wb").write(bom + enc(t))
    total += len(t)
    nl.append(len(L))
    if f in dayset:
        d = [x for x in t if R.random() > 0.002]
        for i in range(len(d) // 500 + 1):
            if L:
                e = R.choice(L)
                d.append(line((e[0], place("FR"))))
        open(P("feeds/f%05d.day.csv" % f), "wb").write(bom + enc(d))
one = sorted(range(K), key=lambda f: -nl[f])[min(5, K - 1)]  # a large feed
for k, x in enumerate(feeds[one]):
    if x[1] is not None:
        break
raw = open(P("feeds/f%05d.csv" % one), "rb").read()
old = line(feeds[one][k]).encode()[:-1]
new = line((feeds[one][k][0], ("NZ", "NZ-AUK", "Auckland", ""))).encode()[:-1]
open(P("feeds/f%05d.one.csv" % one), "wb").write(raw.replace(old, new, 1))

# ---- overrides
with open(P("over.csv"), "w") as o:
    for _ in range(max(5, int(2000 * X))):
        a = R.choice(eights) << 24 | R.getrandbits(24)
        x = R.random()
        if x < 0.6:
            m = R.randint(16, 32)
            key = v4(a >> (32 - m) << (32 - m)) + "/%d" % m
        elif x < 0.85:
            key = "%s-%s" % (v4(a), v4(min(a + R.randint(0, 5000), 0xFFFFFFFF)))
        else:
            key = (
                v6((R.choice(list(V6BASE.values())) << 112 | R.getrandbits(100)) >> 80 << 80)
                + "/48"
            )
        p = place(R.choice(ALLCC))
        o.write(
            key
            + (
                ",void\n"
                if R.random() < 0.2
                else ",set,%s,%s,%s,%s\n" % (p[0], p[1], csv_field(p[2]), p[3])
            )
        )

# ---- jobs
head = "epoch 1700000000\n"


def src(nro, day=False, onef=False):
    t = "rpsl ripe ripe.db\nstats nro %s\n" % nro
    for f in range(K):
        suf = ".day" if day and f in dayset else ".one" if onef and f == one else ""
        t += "feed %s feeds/f%05d%s.csv\n" % (urls[f], f, suf)
    return t + "overrides over.csv\n"


w = lambda n, t: open(P(n), "w").write(head + t)
base = src("nro.txt")
w("stats.job", "stats nro nro.txt\nemit out.mmdb\n")
w("world.job", base + "emit world.mmdb\n")
w("world-report.job", base + "report\nemit world.mmdb\n")
w(
    "world-one.job",
    base + "emit world.mmdb\nfeed %s feeds/f%05d.one.csv\nemit world2.mmdb\n" % (urls[one], one),
)
w(
    "world-day.job",
    base
    + "emit world.mmdb\nstats nro nro.day.txt\n"
    + "".join("feed %s feeds/f%05d.day.csv\n" % (urls[f], f) for f in sorted(dayset))
    + "emit world2.mmdb\n",
)
w("fresh-one.job", src("nro.txt", onef=True) + "emit world2.mmdb\n")
w("fresh-day.job", src("nro.day.txt", day=True) + "emit world2.mmdb\n")
print(
    "stats lines %d, dump objects %d, feeds %d with %d lines, overrides %d"
    % (len(head) and made + n6 + na + 4, nobj, K, total, max(5, int(2000 * X)))
)
