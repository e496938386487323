#!/bin/sh
# Tests rust/, the library as plain Rust. Needs cargo with rustfmt and clippy, and Python 3; no network and no rt.
#
#   scripts/rust.sh          all that is below
#   scripts/rust.sh quick    the same without the package, the plants and the fuzzing
#   scripts/rust.sh beside   all but the step that measures time, so other programs may run beside it
#   scripts/rust.sh times    that step alone
#
# - The generated files are what a fresh run of tools/eraser/erase.py writes.
# - rustfmt, clippy and rustdoc have nothing to say, and all tests pass, with and without the feature `fallible`; the crate builds
#   without `std`.
# - The eraser refuses each plant of tools/eraser/plants.py. A test or a model notices each of tools/plain_mutants.py, and the tests that
#   scripts/try.sh chooses notice a wrong retry time.
# - The models of tools/models answer as the library does, for 20 seconds each.
# - Viewers behind the simulated links of tools/paths see what is wanted, and docs/use/BANDWIDTH.md has their table.
# - The package builds by itself, with each test and example in it, and each example ends well; docs/use/LIMITS.md and
#   docs/use/FEEDBACK.md have the tables that examples print.
# - No pop of a buffer takes more than 2 microseconds if packets that are no frame lie before the next frame (tools/speed).
# - With valgrind: no datagram of a peer that chooses its numbers takes more instructions than its bound, and no packet for a viewer
#   (tools/measure/rust_speed.py).
# - The programs over lines, tools/lines: rustfmt and clippy have nothing to say, and each test vector gets its answer
#   (tests/vectors/process.py). In rust-c rustfmt and clippy have nothing to say.
# - With clang's libFuzzer: two seconds of each fuzz target (tools/fuzz/fuzz.sh). With Debian's packages of crates: rust-extras/test.sh.
#
# The last line says what passed; the status is 0 if all did.
set -eu

root=$(cd "$(dirname "$0")/.." && pwd)
cd "$root/rust"
export CARGO_NET_OFFLINE=true
work=$(mktemp -d)
trap 'rm -rf "$work"' EXIT
. "$root/scripts/lanes.sh"

# step WORDS..: one command, whose output is shown if it fails
step() {
    "$@" >"$work/log" 2>&1 || {
        cat "$work/log"
        echo "rust: $* failed"
        exit 1
    }
}

# The crate itself.
crate() {
    step cargo fmt --check
    step "$root/scripts/rust_api.py" --check
    step cargo clippy --quiet --all-targets -- -D warnings
    step cargo clippy --quiet --all-targets --features fallible -- -D warnings
    step cargo check --quiet --lib --no-default-features
    step cargo test --quiet
    passed=$(sed -n 's/^test result: ok. \([0-9]*\) passed.*/\1/p' "$work/log" | awk '{ sum += $1 } END { print sum }')
    step "$root/scripts/try.sh" vp9
    [ "$how" = quick ] || step "$root/scripts/try.sh" must-fail
    step cargo test --quiet --features fallible
    fallible=$(sed -n 's/^test result: ok. \([0-9]*\) passed.*/\1/p' "$work/log" | awk '{ sum += $1 } END { print sum }')
    RUSTDOCFLAGS="-D warnings" step cargo doc --quiet --no-deps
    # Some examples print a table of a page.
    tables="bandwidth:BANDWIDTH narrow:BANDWIDTH longer_way:BANDWIDTH waiting:LIMITS restarts:LIMITS adaptive_wait:LIMITS session_requests:FEEDBACK"
    for example in examples/*.rs; do
        example=$(basename "$example" .rs)
        case " $tables " in
        *" $example:"*) ;;
        *) step cargo run --quiet --example "$example" ;;
        esac
    done
    for table in $tables; do
        example=${table%:*} page=docs/use/${table#*:}.md
        step cargo run --quiet --example "$example"
        while read -r row; do
            grep -qxF -- "$row" "$root/$page" || {
                echo "rust: $page lacks this row of examples/$example.rs: $row"
                exit 1
            }
        done <"$work/log"
    done
    [ "$how" = quick ] || packaged
    echo "$passed tests, $fallible with \`fallible\`, $(ls examples/*.rs | wc -l) examples"
}

# The package builds by itself, and so does each test and example in it.
packaged() {
    rm -rf target/package
    step cargo package --quiet --allow-dirty
    for package in target/package/*/Cargo.toml; do
        step cargo check --quiet --all-targets --manifest-path "$package"
    done
}

# What hostile packets cost, packets for a viewer, and FEC.
speed() {
    step cargo build --quiet --release --manifest-path "$root/tools/speed/Cargo.toml"
    ! command -v valgrind >/dev/null || step "$root/tools/measure/rust_speed.py" --hostile
    ! command -v valgrind >/dev/null || step "$root/tools/measure/rust_speed.py" --forward
    ! command -v valgrind >/dev/null || step "$root/tools/measure/rust_speed.py" --ports
    ! command -v valgrind >/dev/null || step "$root/tools/measure/rust_speed.py" --fec
}

# The programs over lines, and the calls of C over the crate, whose tests scripts/targets.sh runs.
lines() {
    step cargo fmt --check --manifest-path "$root/rust-c/Cargo.toml"
    step cargo clippy --quiet --manifest-path "$root/rust-c/Cargo.toml" -- -D warnings
    step cargo fmt --check --manifest-path "$root/tools/lines/Cargo.toml"
    step cargo clippy --quiet --all-targets --manifest-path "$root/tools/lines/Cargo.toml" -- -D warnings
    step "$root/tests/vectors/process.py"
    echo "programs over lines: $(tail -n 1 "$work/log")"
}

# Random schedules through the library and through models that are written from the pages.
models() {
    step cargo fmt --check --manifest-path "$root/tools/models/Cargo.toml"
    step cargo clippy --quiet --all-targets --manifest-path "$root/tools/models/Cargo.toml" -- -D warnings
    step cargo build --quiet --release --manifest-path "$root/tools/models/Cargo.toml"
    seconds=20
    [ "$how" != quick ] || seconds=2
    for model in buffer receiver forwarder; do
        step "$root/tools/models/target/release/models" "$model" "$seconds"
        cat "$work/log"
    done
}

# Viewers behind simulated links: what is wanted of them, and the table of a page.
paths() {
    step cargo fmt --check --manifest-path "$root/tools/paths/Cargo.toml"
    step cargo clippy --quiet --all-targets --manifest-path "$root/tools/paths/Cargo.toml" -- -D warnings
    step cargo build --quiet --release --manifest-path "$root/tools/paths/Cargo.toml"
    step "$root/tools/paths/target/release/paths" --check
    cat "$work/log"
    step "$root/tools/paths/target/release/paths" 10
    while read -r row; do
        grep -qxF -- "$row" "$root/docs/use/BANDWIDTH.md" || {
            echo "rust: docs/use/BANDWIDTH.md lacks this row of tools/paths: $row"
            exit 1
        }
    done <"$work/log"
}

mutants() {
    step "$root/tools/plain_mutants.py"
}

plants() {
    step "$root/tools/eraser/plants.py"
}

extras() {
    step "$root/rust-extras/test.sh"
}

fuzzing() {
    ls /usr/lib/llvm-*/lib/clang/*/lib/linux/libclang_rt.fuzzer-x86_64.a >/dev/null 2>&1 || return 0
    step "$root/tools/fuzz/fuzz.sh" 2
    echo "; $(tail -n 1 "$work/log")"
}

# Measures time, so nothing runs beside it.
timed() {
    step cargo run --quiet --release --manifest-path "$root/tools/speed/Cargo.toml" --bin orders -- spike
}

how=${1:-}
if [ "$how" = times ]; then
    timed
    echo "rust: $(cat "$work/log")"
    exit 0
fi
# The parts read what the eraser writes, so the eraser comes before them. In scripts/try.sh it then finds nothing to write.
step "$root/tools/eraser/erase.py" --check
if [ "$how" = quick ]; then
    side_by_side crate lines models paths speed
else
    side_by_side crate plants mutants fuzzing lines models paths extras speed
fi
: >"$work/log"
[ "$how" = beside ] || timed
echo "rust: $(said crate); $(sed 's/$/; /' "$work/log")$(said lines)$([ "$how" = quick ] || said fuzzing)"
