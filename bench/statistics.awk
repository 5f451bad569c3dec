# Makes a statistics file of about LINES lines: awk -v lines=300000 -f bench/statistics.awk
# As the registries' joint file it goes up through IPv4, then IPv6, then AS numbers; neighbours
# often have one country, few countries have most ranges, IPv4 counts are mostly powers of two, and
# one line in nine is free or reserved space.

BEGIN {
    seed = 20240301
    split("US US US US BR BR RU RU CN CN IN IN GB DE AU ID JP FR CA UA PL NL IT ES ZA MX AR BD " \
        "KR SE CH IR TR RO CZ HK SG TW TH VN NZ AT NO DK FI BE BG GR PT IE HU CL CO PE EG NG KE " \
        "PK PH MY", countries, " ")
    for (known in countries) count++
    v6 = int(lines / 5); as = int(lines / 20); v4 = lines - v6 - as
    printf "2.3|nro|20240301|%d|19830101|20240301|+0000\n", lines
    printf "nro|*|ipv4|*|%d|summary\nnro|*|ipv6|*|%d|summary\n", v4, v6
    printf "nro|*|asn|*|%d|summary\n", as
    country = "US"

    # IPv4 from 1.0.0.0 to 223.255.255.255, counted in /24: each start is a multiple of the largest
    # size
    step = (223 * 65536) / v4
    for (largest = 1; largest * 2 <= step; ) largest *= 2
    for (n = 0; n < v4; n++) {
        at = 65536 + int(n * step / largest) * largest
        for (size = 1; size < largest && below(8) > 0; ) size *= 2
        if (size >= 4 && below(10) == 0) size = size * 3 / 4
        line("ipv4", int(at / 65536) "." int(at / 256) % 256 "." at % 256 ".0", size * 256)
    }
    tops = split("2001 2400 2600 2800 2a00 2c00", top, " ")
    each = int(v6 / tops) + 1
    for (n = 0; n < v6; n++)
        line("ipv6", sprintf("%s:%x::", top[1 + int(n / each)], n % each),
            32 + (below(3) == 0 ? below(17) : 0))
    for (n = 0; n < as; n++) line("asn", 1 + n, 1)
}

function line(type, start, value) {
    if (below(2) == 0) {
        # the lower of two numbers: the first countries of the list come most
        one = below(count); other = below(count)
        country = countries[1 + (one < other ? one : other)]
    }
    kind = below(9)
    if (kind == 0)
        printf "nro||%s|%s|%d||%s|\n", type, start, value, below(2) ? "available" : "reserved"
    else
        printf "nro|%s|%s|%s|%d|20%02d%02d%02d|%s|%08x|e-stats\n", country, type, start, value,
            below(24), 1 + below(12), 1 + below(28), kind < 5 ? "allocated" : "assigned",
            below(2147483646)
}

function below(most) {
    seed = (seed * 16807) % 2147483647
    return seed % most
}
