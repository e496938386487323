#!/bin/sh
# Refuses each allocation of the library's calls in turn, and checks what then comes.
#
#   scripts/refuse.sh    over the library as `make` builds it
#
# Three programs are run:
#
# - `c/tests/vectors.c` over the proved library for C, and the proved `payload_vectors` if there is rt, on the stored input of
#   payload_vectors, on one input of each other codec, and on one with RED: each prints the whole output with status 0, or only the
#   line `out of memory` on standard error, with status 1.
# - `tools/refused` over the library for C, once for each call that allocates: it prints the full right answer, or fault 17, and how things are after it;
#   the table below has both. If memory is refused to it before or after the call, it prints nothing, with status 3.
#
# C does not have sinks, payloaders and runs. If there is rt, the proved tests `refused` of payload_run_tests are run: each allows
# one refusal, in the call or beside it, and ends well. rust/tests/refused/runs.rs has their tables in plain Rust.
#
# The allocations of each call are also counted: they may be no more than the table says, so a body that allocates without
# need is found. The full answer also comes if std asks for more room than it needs and, refused, asks again when it stores.
# Calls that may not allocate are counted in rust/tests/steady_state.rs. The last line says how many refusals were tried and how
# many went as promised; the status is 0 if all did. Needs make and a C compiler, $CC or cc, for a C library that takes LD_PRELOAD.
set -eu

root=$(cd "$(dirname "$0")/.." && pwd)
stored=$root/crates/payload_vectors
work=$(mktemp -d)
trap 'rm -rf "$work"' EXIT

make -s -C "$root" >/dev/null
library=$root/c/out/libcodec_payload.a
"${CC:-cc}" -std=c99 -O1 -I"$root/include" "$root/tools/refused/refused.c" "$library" -o "$work/calls"
"${CC:-cc}" -std=c99 -O1 -I"$root/include" "$root/c/tests/vectors.c" "$library" -o "$work/vectors"
programs=$work/vectors
if command -v rt >/dev/null; then
    "$root/scripts/kit.py" free || exit 1
    (cd "$stored" && "$root/scripts/kit.py" rt run <stdin) >"$work/run" 2>&1 || {
        cat "$work/run"
        exit 1
    }
    programs="$programs $stored/out/payload_vectors"
fi
tried=0
promised=0
words=
: >"$work/nothing"

cat >"$work/refuse.c" <<'END'
/* Answers the allocation of number $REFUSE, from 1, with no memory, and then writes a byte to descriptor 9. */
#define _GNU_SOURCE
#include <dlfcn.h>
#include <errno.h>
#include <stddef.h>
#include <stdlib.h>
#include <unistd.h>

static int refused(void) {
    static long wanted, seen;
    if (wanted == 0) {
        const char *number = getenv("REFUSE");
        wanted = number ? atol(number) : -1;
    }
    if (++seen != wanted)
        return 0;
    if (write(9, "x", 1) != 1)
        abort();
    errno = ENOMEM;
    return 1;
}

#define NEXT(name) \
    static __typeof__(name) *next; \
    if (!next) \
        next = (__typeof__(name) *)dlsym(RTLD_NEXT, #name)

void *malloc(size_t size) {
    NEXT(malloc);
    return refused() ? NULL : next(size);
}

void *calloc(size_t count, size_t size) {
    NEXT(calloc);
    return refused() ? NULL : next(count, size);
}

void *realloc(void *old, size_t size) {
    NEXT(realloc);
    return refused() ? NULL : next(old, size);
}

void *aligned_alloc(size_t alignment, size_t size) {
    NEXT(aligned_alloc);
    return refused() ? NULL : next(alignment, size);
}

int posix_memalign(void **made, size_t alignment, size_t size) {
    NEXT(posix_memalign);
    return refused() ? ENOMEM : next(made, alignment, size);
}
END
"${CC:-cc}" -O1 -shared -fPIC -o "$work/refuse.so" "$work/refuse.c" -ldl

printf 'out of memory\n' >"$work/told"

# Runs $program with $words on $input with allocation $1 refused.
run_refusing() {
    status=0
    # shellcheck disable=SC2086
    LD_PRELOAD=$work/refuse.so REFUSE=$1 "$program" $words \
        <"$input" >"$work/output" 2>"$work/errors" 9>"$work/refused" || status=$?
}

# Whether the last run printed $1 on standard output and $2 on standard error, and ended with status $3.
ended_with() {
    cmp -s "$work/output" "$1" && cmp -s "$work/errors" "$2" && [ "$status" -eq "$3" ]
}

# Notes that the refusal of number $2 of $1 went otherwise than promised, or that the run with all memory did.
other_than_promised() {
    echo "$1: allocation $2 refused: status $status, and not as promised"
    cat "$work/output" "$work/errors"
}

# Whether no refusal of $1 was reported, which cannot be.
none_told() {
    [ "$told" -gt 0 ] || {
        echo "$1: no refused allocation was told"
        exit 1
    }
}

# Refuses each allocation of a run of each program on the input $1, whose whole output is $2. $3 is what the run is called.
refuse_each() {
    for program in $programs; do
        refuse_program "$@"
    done
}

# The same for one program.
refuse_program() {
    input=$1
    number=1
    told=0
    while run_refusing "$number" && [ -s "$work/refused" ]; do
        tried=$((tried + 1))
        if ended_with "$work/nothing" "$work/told" 1; then
            told=$((told + 1))
            promised=$((promised + 1))
        elif ended_with "$2" "$work/nothing" 0; then
            promised=$((promised + 1))
        else
            other_than_promised "$3" "$number"
        fi
        number=$((number + 1))
    done
    if ! ended_with "$2" "$work/nothing" 0; then
        echo "$3: with no allocation refused the program fails: status $status"
        exit 1
    fi
    none_told "$3"
    echo "$3: $((number - 1)) allocations of $(basename "$program") refused"
}

# Refuses each allocation of the call $1, which prints $2 with all memory. After fault 17 it prints one of the lines of $3,
# which are joined by `|`; $3 is empty if the call does not allocate. With all memory the program makes at most $4 allocations:
# those of the call, and a constant number that prepare the call and print the result.
refuse_call() {
    number=1
    told=0
    while run_refusing "$number" && [ -s "$work/refused" ]; do
        tried=$((tried + 1))
        line=$(cat "$work/output")
        case "$status|$3|" in
        "3"*) as_promised=$([ -s "$work/output" ] || echo yes) ;;
        "0"*"|$line|"*)
            as_promised=yes
            told=$((told + 1))
            ;;
        *) as_promised=$([ "$status|$line" != "0|$2" ] || echo yes) ;;
        esac
        if [ "$as_promised" ]; then
            promised=$((promised + 1))
        else
            other_than_promised "$1" "$number"
        fi
        number=$((number + 1))
    done
    if [ "$status|$(cat "$work/output")" != "0|$2" ]; then
        echo "$1: with no allocation refused the call fails: status $status"
        cat "$work/output"
        exit 1
    fi
    [ -z "$3" ] || none_told "$1"
    [ "$((number - 1))" -le "$4" ] || {
        echo "$1: $((number - 1)) allocations, and not at most $4"
        exit 1
    }
    echo "$1: $((number - 1)) allocations refused, $told of them told by the call"
}

# A run of the codec $1: one sample with the bytes $2, sent at an MTU of $3; the packets up to index $4 are pushed, the
# last first. What it prints with all memory is the output that the others have to give whole.
refuse_codec() {
    {
        echo "codec $1 8000 0 1 0"
        echo "sample 0 1 $2"
        echo "send 0 $3"
        packet=$4
        while [ "$packet" -ge 0 ]; do
            echo "push $packet"
            packet=$((packet - 1))
        done
        echo pop
    } >"$work/input"
    "$work/vectors" <"$work/input" >"$work/whole"
    if ! tail -n 1 "$work/whole" | grep -q '^unit '; then
        echo "$1: no unit"
        exit 1
    fi
    refuse_each "$work/input" "$work/whole" "$1"
}

refuse_each "$stored/stdin" "$stored/stdout" "stored run"
refuse_codec cn 2a8040 1200 0
refuse_codec amrwb 4c5a5a5a5a5a 1200 0
refuse_codec amrwb-octet 4c5a5a5a5a5a 1200 0
refuse_codec tele 058a0320060a0140 8 0
refuse_codec vp8 909090 2 2
refuse_codec vp8-id 909090 5 1
refuse_codec vp9 824983 10 1
refuse_codec vp9-flex 824983 5 1
refuse_codec av1 12000a01aa3202bbcc 3 2
refuse_codec null 909090 0 0

# Two packets of Opus in RED; only the second arrives, and it repeats the first.
cat >"$work/input" <<'END'
codec opus 8000 0 1 0
red 160 1200 1
sample 0 1 9090
sample 160 0 91
send 0 1200
send 1 1200
push 1
pop
pop
END
"$work/vectors" <"$work/input" >"$work/whole"
grep -q '^unit 1 1 1 9090$' "$work/whole" || {
    echo "opus in RED: the first unit is not recovered"
    exit 1
}
refuse_each "$work/input" "$work/whole" "opus in RED"

# Each call of the library for C, the most allocations that it makes, its output with all memory, and its possible outputs after
# fault 17. `packetize` cuts a frame twice, and `depacketize` reads a payload after the earlier ones, and after a fault once
# more; tools/refused describes the others. A new object takes two allocations: its handle, and the box of its kind. The part
# after "then" runs with all memory.
program=$work/calls
input=$work/nothing
while IFS='|' read -r name most whole after; do
    words=$name
    refuse_call "$name" "$whole" "$after" "$most"
done <<'END'
packetize opus|8|packetize 9090 90, then 9090 90|packetize fault 17, then 9090 90
packetize pcmu|8|packetize 9090 90, then 9090 90|packetize fault 17, then 9090 90
packetize g722|8|packetize 9090 90, then 9090 90|packetize fault 17, then 9090 90
packetize cn|6|packetize 2a8040, then 2a8040|packetize fault 17, then 2a8040
packetize amrwb|6|packetize f740, then f740|packetize fault 17, then f740
packetize amrwb-octet|6|packetize f074, then f074|packetize fault 17, then f074
packetize tele|6|packetize 058a0320060a0140, then 058a0320060a0140|packetize fault 17, then 058a0320060a0140
packetize vp8|10|packetize 1090 0090 0090, then 1090 0090 0090|packetize fault 17, then 1090 0090 0090
packetize vp8-id|8|packetize 9080209090 80802090, then 9080219090 80802190|packetize fault 17, then 9080209090 80802090
packetize vp9|8|packetize aa92341001008249 a49234100183, then aa92351002008249 a49235100283|packetize fault 17, then aa92341001008249 a49234100183
packetize vp9-flex|8|packetize 9892348249 94923483, then 9892358249 94923583|packetize fault 17, then 9892348249 94923483
packetize av1|10|packetize 1808aa 5030bb 90cc, then 1808aa 5030bb 90cc|packetize fault 17, then 1808aa 5030bb 90cc
packetize null|6|packetize 909090, then 909090|packetize fault 17, then 909090
depacketize opus|3|depacketize ok, then 909090|
depacketize pcmu|3|depacketize ok, then 909090|
depacketize g722|3|depacketize ok, then 909090|
depacketize cn|3|depacketize ok, then 2a8040|depacketize fault 17, then 2a8040
depacketize amrwb|3|depacketize ok, then 74|depacketize fault 17, then 74
depacketize amrwb-octet|3|depacketize ok, then 74|depacketize fault 17, then 74
depacketize tele|3|depacketize ok, then 058a0320|depacketize fault 17, then 058a0320
depacketize vp8|3|depacketize ok, then 909090|
depacketize vp8-id|3|depacketize ok, then 909090|
depacketize vp9|3|depacketize ok, then 824983|
depacketize vp9-flex|3|depacketize ok, then 824983|
depacketize av1|6|depacketize ok, then 0a01aa3202bbcc|depacketize fault 17, then 0a01aa
depacketize null|3|depacketize ok, then 909090|depacketize fault 17, then 909090
pop opus|11|pop unit 0 0 1 9090 held 1 ready 1, then unit 1 1 1 90|pop fault 17 held 2 ready 2, then unit 0 0 1 9090 unit 1 1 1 90
pop pcmu|11|pop unit 0 0 1 9090 held 1 ready 1, then unit 1 1 1 90|pop fault 17 held 2 ready 2, then unit 0 0 1 9090 unit 1 1 1 90
pop g722|11|pop unit 0 0 1 9090 held 1 ready 1, then unit 1 1 1 90|pop fault 17 held 2 ready 2, then unit 0 0 1 9090 unit 1 1 1 90
pop cn|9|pop unit 0 0 1 2a8040 held 0 ready 0, then|pop fault 17 held 1 ready 1, then unit 0 0 1 2a8040
pop amrwb|9|pop unit 0 0 1 74 held 0 ready 0, then|pop fault 17 held 1 ready 1, then unit 0 0 1 74
pop amrwb-octet|9|pop unit 0 0 1 74 held 0 ready 0, then|pop fault 17 held 1 ready 1, then unit 0 0 1 74
pop tele|9|pop unit 0 0 1 058a0320 held 0 ready 0, then|pop fault 17 held 1 ready 1, then unit 0 0 1 058a0320
pop vp8|13|pop unit 0 2 1 909090 held 0 ready 0, then|pop fault 17 held 3 ready 1, then unit 0 2 1 909090
pop vp8-id|11|pop unit 0 1 1 909090 held 0 ready 0, then|pop fault 17 held 2 ready 1, then unit 0 1 1 909090
pop vp9|11|pop unit 0 1 1 824983 held 0 ready 0, then|pop fault 17 held 2 ready 1, then unit 0 1 1 824983
pop vp9-flex|11|pop unit 0 1 1 824983 held 0 ready 0, then|pop fault 17 held 2 ready 1, then unit 0 1 1 824983
pop av1|14|pop unit 0 2 1 0a01aa3202bbcc held 0 ready 0, then|pop fault 17 held 3 ready 1, then unit 0 2 1 0a01aa3202bbcc
pop null|9|pop unit 0 0 1 909090 held 0 ready 0, then|pop fault 17 held 1 ready 1, then unit 0 0 1 909090
pop-skipping|14|pop unit 3 3 1 0102030405060708090a0b0c0d0e0f1011 held 0 ready 0, then|pop fault 17 held 2 ready 2, then unit 3 3 1 0102030405060708090a0b0c0d0e0f1011|pop fault 17 held 1 ready 1, then unit 3 3 1 0102030405060708090a0b0c0d0e0f1011
push|19|push ok held 5 ready 1, then unit 1 5 1 9091919192|push fault 17 held 4 ready 0, then unit 1 5 1 9091919192
push-evicting|19|push ok held 4 ready 4, then unit 2 2 0 90 unit 3 3 1 90 unit 4 4 1 90 unit 5 5 1 91|push fault 17 held 4 ready 4, then unit 1 1 1 90 unit 2 2 1 90 unit 3 3 1 90 unit 4 4 1 90
encode|4|encode e00f0002600909010203|encode fault 17
decode|1|decode 96 960 0909 96 0 010203|decode fault 17
recover|2|recover 11 1920 0909|recover fault 17
wrap|15|wrap ef2d0001ef0f00016f01032a, then ef2d0001ef0f00016f022a2b|wrap fault 17, then ef3c0001ef1e00016f01032b
wrap-again|47|wrap ef2d0001ef0f00016f11132a, then ef2d0001ef0f00016f122a2b|wrap fault 17, then ef3c0001ef1e00016f11132b
END

# Refuses each allocation of the test $1 of payload_run_tests, which still ends well.
refuse_test() {
    words=refused::$1
    number=1
    while run_refusing "$number" && [ -s "$work/refused" ]; do
        tried=$((tried + 1))
        if [ "$status" -eq 0 ]; then
            promised=$((promised + 1))
        else
            other_than_promised "$1" "$number"
        fi
        number=$((number + 1))
    done
    [ "$number" -gt 4 ] && [ "$status" -eq 0 ] || {
        echo "$1: $((number - 1)) allocations, and status $status without a refusal"
        exit 1
    }
    echo "$1: $((number - 1)) allocations refused"
}

if command -v rt >/dev/null; then
    tests=$root/crates/payload_run_tests
    "$root/scripts/kit.py" tests payload_run_tests || (cd "$tests" && "$root/scripts/kit.py" rt test) >"$work/run" 2>&1 || {
        cat "$work/run"
        exit 1
    }
    program=$tests/out/payload_run_tests_tests
    input=$work/nothing
    for test in memory_sink_refused red_sink_refused push_sample_refused run_schedule_refused; do
        refuse_test "$test"
    done
fi

echo "$tried refusals tried, $promised as promised"
[ "$tried" -eq "$promised" ]
