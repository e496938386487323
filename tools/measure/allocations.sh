#!/bin/bash
# Counts the allocations of the calls of tools/bench, over the proved library for C. Prints a table of allocations per frame,
# and one of the bytes that a receiving stream keeps. Fails if `cpay_packetize_into`, a sender of datagrams or a reader of RTP
# packets allocates in steady state. rust/tests/steady_state.rs shows the same for `packetize_into`, `wrap_into`, `pop_unit` and
# queries.
#
#   tools/measure/allocations.sh           builds tools/bench and counts in all its cases
#   tools/measure/allocations.sh WORD      only in those with WORD in their names
#
# A shim counts calls of malloc, calloc, realloc and similar functions. A case runs with 100 frames per repeat and with 300, and
# the difference excludes the allocations of the program. For memory that stays, the bytes allocated and not released are read
# where the clock is read, after the work, less those of a case without a stream. Needs make and a C compiler, $CC or cc, for a
# C library that supports LD_PRELOAD, and about two minutes.
set -eu
root=$(cd "$(dirname "$0")/../.." && pwd)
mtu=${MTU:-1200} word=${1:-}
work=$(mktemp -d)
trap 'rm -rf "$work"' EXIT

bench=$work/bench
make -s -C "$root" >/dev/null
library=$root/c/out/libcodec_payload.a
"${CC:-cc}" -std=c99 -O2 -I"$root/include" "$root/tools/bench/bench.c" "$library" -o "$bench"

cat > "$work/count.c" <<'END'
/* Counts the allocations, and the bytes that are asked for and not given back as the clock is read last; writes both at the
   end to descriptor 9. */
#define _GNU_SOURCE
#include <dlfcn.h>
#include <malloc.h>
#include <stdio.h>
#include <stdlib.h>
#include <time.h>

static long calls, live, live_then;

#define NEXT(name) \
    static __typeof__(name) *next; \
    if (!next) \
        next = (__typeof__(name) *)dlsym(RTLD_NEXT, #name)

static void *taken(void *block) {
    calls++;
    if (block)
        live += (long)malloc_usable_size(block);
    return block;
}

void *malloc(size_t size) {
    NEXT(malloc);
    return taken(next(size));
}

void *calloc(size_t count, size_t size) {
    NEXT(calloc);
    return taken(next(count, size));
}

void *realloc(void *old, size_t size) {
    NEXT(realloc);
    long before = old ? (long)malloc_usable_size(old) : 0;
    void *block = next(old, size);
    if (block || size == 0)
        live -= before;
    return taken(block);
}

void *aligned_alloc(size_t alignment, size_t size) {
    NEXT(aligned_alloc);
    return taken(next(alignment, size));
}

int posix_memalign(void **made, size_t alignment, size_t size) {
    NEXT(posix_memalign);
    int status = next(made, alignment, size);
    taken(status == 0 ? *made : NULL);
    return status;
}

void free(void *block) {
    NEXT(free);
    if (block)
        live -= (long)malloc_usable_size(block);
    next(block);
}

int clock_gettime(clockid_t id, struct timespec *time) {
    NEXT(clock_gettime);
    live_then = live;
    return next(id, time);
}

__attribute__((destructor)) static void tell(void) {
    dprintf(9, "%ld\t%ld\n", calls, live_then);
}
END
"${CC:-cc}" -O2 -shared -fPIC -o "$work/count.so" "$work/count.c" -ldl

# counted CASE TIMES: the allocations, and the bytes that stay, of one repeat and of one before it.
counted() {
    LD_PRELOAD=$work/count.so "$bench" "$1" "$2" 1 "$mtu" 9> "$work/counts" > /dev/null
    cat "$work/counts"
}

# Few enough calls that a case takes at most a second.
few_of() {
    case $1 in
        buffer-4096/reverse | buffer-65536/reverse) echo 1 ;;
        *) echo 100 ;;
    esac
}

failed=0
printf '| case | allocations a frame |\n|---|---|\n'
for case in $("$bench" | grep -F -- "$word" | grep -v '^memory/'); do
    few=$(few_of "$case")
    read -r less _ < <(counted "$case" "$few")
    read -r more _ < <(counted "$case" $((3 * few)))
    frames=$((4 * few))
    case $case in
        buffer-*/reverse)
            held=${case#buffer-}
            frames=$((frames * ${held%/*})) ;;
        buffers-*)
            count=${case#buffers-}
            frames=$((frames * ${count%/*})) ;;
    esac
    each=$(awk -v all=$((more - less)) -v frames="$frames" 'BEGIN { printf "%.2f", all / frames }')
    printf '| %s | %s |\n' "$case" "$each"
    case $case in
        */packetize-into | */send | rtp/*)
            if [ "$more" -ne "$less" ]; then
                echo "$case takes memory in steady state" >&2
                failed=1
            fi ;;
    esac
done

if "$bench" | grep -qF -- "memory/$word"; then
    read -r _ none < <(counted memory/none 1)
    printf '\n| stream | bytes |\n|---|---|\n'
    for case in $("$bench" | grep '^memory/' | grep -v '/none$'); do
        read -r _ kept < <(counted "$case" 1)
        printf '| %s | %s |\n' "${case#memory/}" $((kept - none))
    done
fi
exit "$failed"
