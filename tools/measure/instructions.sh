#!/bin/sh
# Counts the instructions of a push and a pop while 64 and 4,096 packets are held. Fails if they grow as if each call visited
# all held packets.
#
#   tools/measure/instructions.sh    over the library as `make` builds it
#
# In order a push and a pop take the same at any number held. In a mixed order the packets above a new one move up, 8 or 16
# bytes per packet, as by memmove; a search through all packets would take about four more instructions per packet. Needs
# valgrind and a C compiler, $CC or cc. The last line says what passed.
set -eu
root=$(cd "$(dirname "$0")/../.." && pwd)
library=$root/c/out/libcodec_payload.a
work=$(mktemp -d)
trap 'rm -rf "$work"' EXIT
make -s -C "$root" >/dev/null
"${CC:-cc}" -std=c99 -O1 -I"$root/include" "$root/tools/measure/held.c" "$library" -o "$work/held"

# instructions ORDER HELD: how many a push and a pop take
instructions() {
    valgrind --tool=callgrind --callgrind-out-file=/dev/null --toggle-collect=measured "$work/held" "$1" "$2" 2>"$work/count" || {
        cat "$work/count" >&2
        exit 1
    }
    sed -n 's/.*Collected : //p' "$work/count" | awk '{ print int($1 / 4096) }'
}

# bound ORDER TENTHS: at 4,096 held at most this many tenths of the count at 64
bound() {
    few=$(instructions "$1" 64)
    many=$(instructions "$1" 4096)
    echo "$1: $few instructions at 64 held, $many at 4096"
    [ "$few" -gt 0 ] && [ "$((10 * many))" -le "$(($2 * few))" ] || {
        echo "$1: more than $2 tenths at 4096 held" >&2
        exit 1
    }
}

bound in-order 15
bound scattered 55
echo "instructions: 2 orders, both within their bounds"
