#!/usr/bin/env python3
"""Makes a job over many slots of dumps or of statistics:

    python3 bench/slots.py dumps|stats SLOTS STATEMENTS FOLDER

It writes FOLDER/job and its files: so many slots, each with so many statements, all of one size,
dealt out to the slots in turn in the order of their addresses; so those of one slot ascend, and
those of all have to be put in order. Of dumps it sets one feed too. The job sets all slots and
emits once.
"""
import os, sys

def address(n):
    return "%d.%d.%d.%d" % (n >> 24, n >> 16 & 255, n >> 8 & 255, n & 255)

def main(kind, slots, each, folder):
    os.makedirs(folder, exist_ok=True)
    size = 256 if slots * each < 1 << 23 else 64
    codes = ["DE", "FR", "AT", "CH", "IT"]
    with open(folder + "/job", "w") as job:
        job.write("epoch 1700000000\n")
        for slot in range(slots):
            name = "%s%06d" % (kind[0], slot)
            with open("%s/%s" % (folder, name), "w") as out:
                for line in range(each):
                    first = (line * slots + slot) * size
                    if kind == "stats":
                        code = codes[(slot + line) % 5]
                        out.write("x|%s|ipv4|%s|%d||allocated\n" % (code, address(first), size))
                    else:
                        last = address(first + size - 1)
                        out.write("inetnum: %s - %s\n" % (address(first), last))
                        out.write("geofeed: https://e.example/%d.csv\n\n" % (line % 400))
            job.write("%s %s %s\n" % ("stats" if kind == "stats" else "rpsl", name, name))
        if kind == "dumps":
            with open(folder + "/feed", "w") as out:
                out.write("0.0.0.0/24,DE,,,\n")
            job.write("feed https://e.example/0.csv feed\n")
        job.write("emit out.mmdb\n")

main(sys.argv[1], int(sys.argv[2]), int(sys.argv[3]), sys.argv[4])
