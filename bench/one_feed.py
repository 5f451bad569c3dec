#!/usr/bin/env python3
"""Makes a job with one feed and the references to it, for `geofeed check`:

    python3 bench/one_feed.py disjoint|overlap|nest REFERENCES LINES FOLDER

It writes FOLDER/job, FOLDER/dump and FOLDER/feed. The ranges lie side by side, all overlap, or all
nest; the lines lie within them, at most 16 for each reference. The feed's URL is
https://e.example/feed.csv, and the job emits once.
"""
import os, sys

def address(n):
    n += 1 << 24
    return "%d.%d.%d.%d" % (n >> 24, n >> 16 & 255, n >> 8 & 255, n & 255)

def last_of(kind, count, index):
    if kind == "disjoint":
        return index + 1
    return index + count if kind == "overlap" else 2 * count - index

def main(kind, count, lines, folder):
    os.makedirs(folder, exist_ok=True)
    url = "https://e.example/feed.csv"
    with open(folder + "/dump", "w") as out:
        for index in range(count):
            last = last_of(kind, count, index) * 256 - 1
            out.write("inetnum: %s - %s\n" % (address(index * 256), address(last)))
            out.write("geofeed: %s\n\n" % url)
    with open(folder + "/feed", "w") as out:
        for line in range(lines):
            first = line * count // lines * 256 + line % 16 * 16
            out.write("%s/28,%s,,,\n" % (address(first), ["DE", "FR", "AT"][line % 3]))
    with open(folder + "/job", "w") as out:
        out.write("epoch 1700000000\nrpsl dump dump\nfeed %s feed\nemit out.mmdb\n" % url)

main(sys.argv[1], int(sys.argv[2]), int(sys.argv[3]), sys.argv[4])
