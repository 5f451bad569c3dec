# Makes statistics of LINES IPv6 blocks at random over 2000::/3, which share almost no nodes:
#     awk -v lines=60000 -v prefix=128 -f bench/random6.awk
# or of another prefix length that 16 divides.

BEGIN {
    seed = 20240304
    split("DE FR IT", countries, " ")
    for (n = 0; n < lines; n++) {
        address = sprintf("%x", 8192 + below(8192))
        for (bits = 16; bits < 128; bits += 16)
            address = address ":" (bits < size() ? sprintf("%x", below(65536)) : "0")
        printf "x|%s|ipv6|%s|%d||allocated\n", countries[1 + below(3)], address, size()
    }
}

function size() { return prefix ? prefix : 128 }
function below(most) { seed = (seed * 16807) % 2147483647; return int(seed / 2147483647 * most) }
