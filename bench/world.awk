# Makes sources of all kinds and a job over them, in the current folder:
#     awk -v lines=100000 -f bench/world.awk
# A dump of LINES / 5 objects, two in three of which refer to one of 20 feeds; the feeds, with about
# LINES lines in all, a few of which no reference covers; LINES / 100 overrides; and the second form
# of one feed, which differs in one line. The job reads `stats.txt` too, which bench/statistics.awk
# makes, and has an emit before that line changed and one after it.

BEGIN {
    seed = 20240303
    objects = int(lines / 5)
    feeds = 20
    print "% made" > "dump.db"
    for (n = 0; n < objects; n++) object(n)
    for (n = 0; n < feeds; n++) printf "192.0.2.%d/32,NO,,Nowhere covered,\n", n > feed(n)
    for (n = 0; n < int(lines / 100); n++) override()
    job()
}

# An IPv4 object of 256 addresses with entries of 64, 32 or 1, or an IPv6 one with entries of /48.
function object(n,    name, prefix, k) {
    name = n % feeds
    if (n % 8 == 7) {
        prefix = sprintf("2a0%x:%x", n % 16, int(n / 16))
        printf "\ninet6num: %s::/32\nsource: MADE\n", prefix > "dump.db"
        if (n % 3) printf "geofeed: %s\n", url(name) > "dump.db"
        for (k = 0; k < 4; k++) entry(name, sprintf("%s:%x::/48", prefix, below(65536)), "2a")
        return
    }
    prefix = 20 + int(n / 65536) "." int(n / 256) % 256 "." n % 256
    printf "\ninetnum: %s.0 - %s.255\nnetname: MADE-%d\n", prefix, prefix, n > "dump.db"
    printf "last-modified: 20%02d-01-01T00:00:00Z\n", below(24) > "dump.db"
    if (n % 3) printf "remarks: Geofeed %s\n", url(name) > "dump.db"
    for (k = 0; k < 3; k++) entry(name, prefix "." k * 64 "/" (k == 2 ? 27 : 26), "v4")
    if (n % 10 == 0) entry(name, prefix "." 192 + below(64) "/32", "v4")
    else entry(name, prefix "." 192 "/26", "v4")
}

# A line that says nothing, a country, or one with its region, its city and at times a postal code.
function entry(name, prefix, kind,    country, city) {
    country = code()
    if (below(20) == 0) printf "%s,,,,\n", prefix > feed(name)
    else if (below(2) == 0) printf "%s,%s,,,\n", prefix, country > feed(name)
    else {
        city = sprintf("%s-%d,\"City %d, %s\"", country, below(30), below(4000), kind)
        printf "%s,%s,%s,%s\n", prefix, country, city, below(3) ? "" : below(90000) > feed(name)
    }
}

function override(    block) {
    block = 20 "." below(80) "." below(256) "." below(64) * 4
    if (below(5) == 0) printf "%s/30,void\n", block > "over.csv"
    else printf "%s/30,set,%s,,Over %d,\n", block, code(), below(100) > "over.csv"
}

function job(    n, line) {
    printf "epoch 1700000000\nstats made stats.txt\n" > "job"
    printf "rpsl made dump.db\noverrides over.csv\n" > "job"
    for (n = 0; n < feeds; n++) {
        close(feed(n))
        printf "feed %s %s\n", url(n), feed(n) > "job"
    }
    printf "emit out.mmdb\n" > "job"
    while ((getline line < feed(8)) > 0) {
        if (line ~ /^20\.0\.8\.0\/26,/) line = "20.0.8.0/26,NZ,,Changed,"
        print line > "changed.csv"
    }
    printf "feed %s changed.csv\nemit second.mmdb\n", url(8) > "job"
}

function feed(n) { return "feed" n ".csv" }
function url(n) { return "https://made.example/" n ".csv" }
function code() { return sprintf("%c%c", 65 + below(10), 65 + below(25)) }
function below(most) { seed = (seed * 16807) % 2147483647; return seed % most }
