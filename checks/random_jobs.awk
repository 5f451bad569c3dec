# Random jobs over a small world, whose sources speak of the same addresses:
#     awk -v seed=SEED -v jobs=N [-v marks=1] -f checks/random_jobs.awk
# Job n stands in the folder n, which has to be there: its sources, `job`, which sets, drops and
# emits at random, and `fresh`, a job of the sources that are in force at its end. With marks=1 the
# jobs mark, go back, compact and report as well. All follows from the seed, with one awk.

BEGIN {
    below(1000)
    below(1000)
    for (n = 1; n <= jobs; n++) make(n "/")
}

function below(n) { seed = (seed * 16807) % 2147483647; return int(seed / 7) % n }

# One of the words, in which ~ stands for a blank.
function pick(list,    words, count) {
    count = split(list, words, " ")
    count = words[1 + below(count)]
    gsub(/~/, " ", count)
    return count
}

function dotted(n) {
    return int(n / 16777216) "." int(n / 65536) % 256 "." int(n / 256) % 256 "." n % 256
}

# An address of one of eight roots, at a multiple of so many.
function near(size,    at) {
    at = 3221225984 + below(8) * 65536 + below(4) * 256 + below(256)
    return at - at % size
}

function four(    len) {
    if (below(40) == 0) return pick("0.0.0.0/0 128.0.0.0/1 255.255.255.255 192.0.0.0/8")
    len = 20 + below(13)
    return dotted(near(2 ^ (32 - len))) (len == 32 && below(2) ? "" : "/" len)
}

function six() {
    if (below(10) == 0) return pick("::ffff:c000:200/120 2002:c000:200::/40 ffff::/16 ::1:0:0/96")
    return sprintf("2001:db8:%x::/%d", below(4) * 4096, pick("34 35 36 48"))
}

function net() { return below(4) ? four() : six() }

# The four fields of a place, some of them refused or without a word.
function place() {
    return pick("DE,DE-BE,Berlin, AT,,Wien, CH,CH-ZH,, FR,,,75001 ,,, ZZ,,, US,US-CA,, de,,, " \
        ",FR-75,, DEU,,, DE,DE_BE,, JP,JP-13,東京,1 DE,,\"Bad~X,~Y\", DE")
}

function stats(file,    n, at, cut) {
    for (n = below(12); n >= 0; n--) {
        at = below(4) ? four() : six()
        split(at, cut, "/")
        if (at !~ /:/) cut[2] = below(3) ? 2 ^ (32 - (cut[2] == "" ? 32 : cut[2])) : 1 + below(2000)
        at = "|" (at ~ /:/ ? "ipv6" : "ipv4") "|" cut[1] "|" cut[2] "||"
        print "x|" pick("DE AT CH ZZ FR de") at \
            pick("allocated assigned allocated assigned available") > file
    }
    close(file)
}

# The key of an object: a network, or a range of IPv4.
function key(    first) {
    if (below(3)) return net()
    first = near(1)
    return dotted(first) " - " dotted(first + below(5000))
}

function dump(file,    n, at) {
    for (n = below(8); n >= 0; n--) {
        at = key()
        print (at ~ /:/ ? "inet6num: " : "inetnum: ") at > file
        print pick("geofeed: remarks:~Geofeed") " https://e.example/" pick("a b c") > file
        if (below(2)) print "last-modified: 202" below(5) "-01-01T00:00:00Z" > file
        print "" > file
    }
    close(file)
}

function feed(file,    n) {
    for (n = below(10); n >= 0; n--) print net() "," place() > file
    close(file)
}

function own(file,    n) {
    for (n = below(4); n >= 0; n--)
        print key() "," pick("set,DE,,Bonn void set,JP set,,, set") > file
    close(file)
}

# One step that sets or drops, and with marks, marks or goes back. What is in force is kept in
# `now`, so that no step is blocked.
function step(folder,    kind, name, what) {
    kind = below(marks ? 10 : 8)
    name = "f" ++files
    if (kind < 2) {
        what = "stats " pick("x y")
        stats(folder name)
    } else if (kind < 4) {
        what = "rpsl " pick("r s")
        dump(folder name)
    } else if (kind < 6) {
        what = "feed https://e.example/" pick("a b c")
        feed(folder name)
    } else if (kind < 7) {
        what = "overrides"
        own(folder name)
    } else if (kind < 8) {
        dropped(folder)
        return
    } else if (kind < 9) {
        for (what in kept) delete kept[what]
        for (what in now) kept[what] = now[what]
        marked = 1
        print "mark m" > (folder "job")
        return
    } else {
        if (!marked) return
        for (what in now) delete now[what]
        for (what in kept) now[what] = kept[what]
        print "back m" > (folder "job")
        return
    }
    print what " " name > (folder "job")
    now[what] = name
}

function dropped(folder,    what) {
    for (what in now)
        if (below(3) == 0) {
            print "drop " what > (folder "job")
            delete now[what]
            return
        }
}

function make(folder,    n, m, what, type) {
    for (what in now) delete now[what]
    for (what in kept) delete kept[what]
    files = marked = 0
    type = pick("Geofeed-City Geofeed-City Own_Type-2")
    print "epoch " 1700000000 + below(100) > (folder "job")
    if (below(2)) print "type " type > (folder "job")
    else type = "Geofeed-City"
    print "pieces " 1 + below(9) > (folder "job")
    for (m = 1 + below(3); m > 0; m--) {
        for (n = 2 + below(7); n > 0; n--) step(folder)
        if (marks && below(3) == 0) print "compact" > (folder "job")
        if (marks && below(2)) print "report" > (folder "job")
        print "emit " (m == 1 ? "last" : "emit" m) > (folder "job")
    }
    close(folder "job")
    getline what < (folder "job")
    close(folder "job")
    print what > (folder "fresh")
    print "type " type > (folder "fresh")
    for (what in now) print what " " now[what] > (folder "fresh")
    if (marks && below(2)) print "report" > (folder "fresh")
    print "emit fresh.mmdb" > (folder "fresh")
    close(folder "fresh")
}
