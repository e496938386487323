#!/bin/bash
# Times the library's calls beside copying the same payloads into fresh Vecs, and prints tables of nanoseconds and ratios.
#
#   tools/measure/bench.sh                 Builds tools/bench over the proved library for C and runs all its cases.
#   tools/measure/bench.sh OTHER [WORD]    Compares with another build of tools/bench, such as an older one. WORD selects cases by name.
#
# Each number is the minimum of ROUNDS rounds of REPEATS repeats; both builds take turns. A ratio to a copy compares a call with
# allocating the memory of the payloads and copying their bytes. A ratio to the buffer compares a receiver with a push and a pop
# of its buffer. Needs make, a C compiler, $CC or cc, and about five minutes. Figures up to 2026-11-24 come from a program in
# Rattle, without the boundary to C.
set -eu
root=$(cd "$(dirname "$0")/../.." && pwd)
rounds=${ROUNDS:-5} repeats=${REPEATS:-20} mtu=${MTU:-1200}
other=${1:-} word=${2:-}
work=$(mktemp -d)
trap 'rm -rf "$work"' EXIT
results=$work/results
bench=$work/bench

make -s -C "$root" >/dev/null
library=$root/c/out/libcodec_payload.a
"${CC:-cc}" -std=c99 -O2 -I"$root/include" "$root/tools/bench/bench.c" "$library" -o "$bench"

# Enough calls that a repeat takes about a millisecond or more.
times_of() {
    case $1 in
        buffer-64/reverse) echo 20 ;;
        buffer-512/reverse) echo 3 ;;
        buffer-4096/reverse | buffer-65536/reverse) echo 1 ;;
        buffers-*) echo 5 ;;
        buffer-*) echo 20000 ;;
        *-200k/*) echo 60 ;;
        *-20k/*) echo 600 ;;
        *-1k/*) echo 6000 ;;
        *) echo 20000 ;;
    esac
}

for _ in $(seq "$rounds"); do
    for case in $("$bench" | grep -F -- "$word" | grep -v '^memory/'); do
        printf 'now\t%s\n' "$("$bench" "$case" "$(times_of "$case")" "$repeats" "$mtu")" >> "$results"
        if [ -n "$other" ]; then
            printf 'other\t%s\n' "$("$other" "$case" "$(times_of "$case")" "$repeats" "$mtu")" >> "$results"
        fi
    done
done

awk -F'\t' -v with_other="$other" '
    { key = $1 "\t" $2
      if (!(key in least) || $3 < least[key]) least[key] = $3
      if ($1 == "now" && !($2 in seen)) { seen[$2] = 1; order[++count] = $2 } }
    END {
        printf "| case | ns a frame | over a copy | over memcpy | over the buffer |"
        if (with_other) printf " other, ns | over the other |"
        printf "\n|---|---|---|---|---|"
        if (with_other) printf "---|---|"
        printf "\n"
        for (i = 1; i <= count; i++) {
            split(order[i], part, "/")
            ns = least["now\t" order[i]]
            copy = least["now\t" part[1] "/copy"]
            ratio = (copy > 0 && part[2] != "copy") ? sprintf("%.2f", ns / copy) : ""
            plain = least["now\t" part[1] "/memcpy"]
            over = (plain > 0 && part[2] ~ /^(packetize|send|parse|values|write)/) ? sprintf("%.2f", ns / plain) : ""
            alone = order[i]
            beyond = (sub(/^receiver-/, "buffer-", alone) && least["now\t" alone] > 0) ? sprintf("%.2f", ns / least["now\t" alone]) : ""
            printf "| %s | %s | %s | %s | %s |", order[i], ns, ratio, over, beyond
            if (with_other) {
                was = least["other\t" order[i]]
                printf " %s | %s |", was, (was > 0) ? sprintf("%.2f", ns / was) : ""
            }
            printf "\n"
        }
    }' "$results"
