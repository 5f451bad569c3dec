#!/usr/bin/env python3
"""Makes the generated job of the command `gen N FILE` as files:

    python3 bench/make_gen.py N FOLDER

It writes gen.db, gen.txt, first.csv, second.csv, gen.job with two emits as `gen` has them,
gen1.job with the first alone, and gen2.job, a fresh build of the second feed. `geofeed build
gen.job` writes the same bytes as `geofeed gen N FILE`.
"""
import os, sys


def feed(n, second, out):
    cc = ("DE", "FR", "IT")
    with open(out, "w") as f:
        buf = []
        for i in range(n):
            a = 0x0A000000 + 16 * i
            c = "CH" if second and i == 0 else cc[i % 3]
            buf.append(
                "%d.%d.%d.%d/28,%s,,City %d,\n"
                % (a >> 24, a >> 16 & 255, a >> 8 & 255, a & 255, c, i % 1000)
            )
            if len(buf) == 65536:
                f.write("".join(buf))
                buf = []
        f.write("".join(buf))


def main():
    if len(sys.argv) != 3:
        sys.exit(__doc__)
    n, d = int(sys.argv[1]), sys.argv[2]
    os.makedirs(d, exist_ok=True)
    w = lambda name, text: open(os.path.join(d, name), "w").write(text)
    w("gen.db", "inetnum: 10.0.0.0 - 10.255.255.255\ngeofeed: https://gen.example/feed.csv\n")
    w("gen.txt", "gen|US|ipv4|10.0.0.0|16777216|20200101|allocated\n")
    feed(n, False, os.path.join(d, "first.csv"))
    feed(n, True, os.path.join(d, "second.csv"))
    head = "epoch 1700000000\nrpsl gen gen.db\nstats gen gen.txt\n"
    one = "feed https://gen.example/feed.csv first.csv\nemit out.mmdb\n"
    two = "feed https://gen.example/feed.csv second.csv\nemit out.mmdb\n"
    w("gen.job", head + one + two)
    w("gen1.job", head + one)
    w("gen2.job", head + two)


main()
