#!/bin/sh
# Tries an edit of the proved sources without a proof: writes the plain Rust again, compiles it and runs tests. Needs cargo and
# Python 3, and no rt.
#
#   scripts/try.sh        the tests that exercise what differs from the last commit; all tests if nothing does
#   scripts/try.sh vp9    these, and all tests with this word in their names
#   scripts/try.sh all    all tests
#   scripts/try.sh must-fail    edits a copy of the repository in ways that these tests notice, and fails if one is not noticed
#
# scripts/tests_of.py says which tests exercise an edit. A premise that a caller breaks is an assertion there; an overflow and an
# index out of bounds stop a test with their place.
set -eu

root=$(cd "$(dirname "$0")/.." && pwd)

# A retry time of 5/4 of the round trip in place of 9/8, which no test has in its name: `try.sh nack` has to fail.
must_fail() {
    copy=$(mktemp -d)
    trap 'rm -rf "$copy"' EXIT
    mkdir "$copy/house"
    (cd "$root" && git ls-files -z --cached --others --exclude-standard crates crates.txt rust rust-c scripts tools/eraser tools/lines tools/rtp_record/captures tests c/tests | xargs -0 cp --parents -t "$copy/house")
    cd "$copy/house"
    git init -q . && git add -A && git -c user.name=try -c user.email=try@localhost commit -qm copy
    nack=crates/codec_payload_feedback_requests/src/nack.rt
    sed -i 's|saturating_add(round_trip / 8)|saturating_add(round_trip / 4)|' "$nack"
    ! git diff --quiet -- "$nack" || {
        echo "try: $nack has no such line to edit"
        exit 1
    }
    if CARGO_TARGET_DIR="$copy/target" scripts/try.sh nack >"$copy/log" 2>&1; then
        echo "try: a wrong retry time passes"
        exit 1
    fi
    grep -q '^test .*FAILED\|panicked at' "$copy/log" || {
        cat "$copy/log"
        echo "try: no test failed, but something else"
        exit 1
    }
    echo "try: a wrong retry time is noticed by $(sed -n 's/.*panicked at \(tests\/[^:]*\).*/\1/p' "$copy/log" | sort -u | paste -sd' ')"
}

# Runs tests, and shows those that ran.
run() {
    status=0
    output=$(CARGO_NET_OFFLINE=true cargo test --quiet --no-fail-fast "$@" 2>&1) || status=$?
    printf '%s\n' "$output" | grep -v '^$\|^running 0 tests\|^test result: ok. 0 passed' || true
    [ "$status" -eq 0 ] || failed=$status
}

if [ "${1:-}" = must-fail ]; then
    must_fail
    exit 0
fi
"$root/tools/eraser/erase.py"
changed=$("$root/scripts/tests_of.py")
cd "$root/rust"
failed=0
if [ "${1:-}" = all ] || { [ -z "$changed" ] && [ $# -eq 0 ]; }; then
    run --tests
else
    # shellcheck disable=SC2086
    [ -z "$changed" ] || run --lib $changed
    [ $# -eq 0 ] || [ "$failed" -ne 0 ] || run --tests "$@"
fi
exit $failed
