#!/bin/sh
# Fuzzes rust/ with coverage, by clang's libFuzzer.
#
#   tools/fuzz/fuzz.sh SECONDS [TARGET..]   runs each target of tools/fuzz for that time
#
# Inputs are kept in tools/fuzz/target/corpus/TARGET, beside the seeds that tools/fuzz/seeds.py makes of the test vectors. An input that
# breaks a property is kept as tools/fuzz/target/TARGET-crash-*. Needs cargo and clang with its runtime libraries (Debian:
# libclang-rt-*-dev). The last line says how many inputs were run; the status is 0 if none failed.
set -eu

seconds=$1
shift
cd "$(dirname "$0")"
runtime=$(find /usr/lib/llvm-*/lib/clang/ -name 'libclang_rt.fuzzer-x86_64.a' 2>/dev/null | sort | tail -n 1)
[ -n "$runtime" ] || {
    echo "there is no libFuzzer: install clang and its libclang-rt-*-dev" >&2
    exit 2
}
target=x86_64-unknown-linux-gnu
RUSTFLAGS="-Cpasses=sancov-module -Cllvm-args=-sanitizer-coverage-level=4 -Cllvm-args=-sanitizer-coverage-inline-8bit-counters
 -Cllvm-args=-sanitizer-coverage-pc-table -Cllvm-args=-sanitizer-coverage-trace-compares -Clink-arg=$runtime -Clink-arg=-lstdc++" \
    cargo build --offline --quiet --release --target "$target"
[ $# -gt 0 ] || set -- $(sed -n 's/^    ("\([a-z0-9]*\)",.*/\1/p' src/main.rs)
./seeds.py target/corpus >/dev/null
runs=0
for name in "$@"; do
    FUZZ_TARGET=$name "target/$target/release/fuzz" -max_total_time="$seconds" -max_len=4096 -timeout=10 -print_final_stats=1 \
        -artifact_prefix="target/$name-" "target/corpus/$name" >"target/$name.log" 2>&1 || {
        tail -n 30 "target/$name.log"
        echo "fuzz: $name failed"
        exit 1
    }
    one=$(sed -n 's/^stat::number_of_executed_units: *//p' "target/$name.log")
    echo "$name: $one inputs, $(grep -o 'cov: [0-9]*' "target/$name.log" | tail -n 1)"
    runs=$((runs + one))
done
echo "fuzz: $# targets, $runs inputs, none failed"
