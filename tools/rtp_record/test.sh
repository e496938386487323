#!/bin/sh
# Builds the recorder, plain and with sanitizers, and runs all its tests over the captures of the repository. The last line is
# `N passed, N failed`; the status is 0 if nothing failed.
set -u
cd "$(dirname "$0")" || exit 2
passed=0
failed=0
make -s -C ../.. && make -s all sanitized || exit 2

# counts COMMAND..: its last line is `N passed, N failed`
counts() {
    output=$("$@" 2>&1)
    status=$?
    printf '%s\n' "$output"
    line=$(printf '%s\n' "$output" | tail -n 1)
    set -- $(printf '%s\n' "$line" | sed -n 's/^\([0-9]*\) passed, \([0-9]*\) failed$/\1 \2/p') 0 1
    passed=$((passed + $1))
    failed=$((failed + $2))
    [ "$status" -eq 0 ] || [ "$2" -gt 0 ] || failed=$((failed + 1))
}

for test in tests/test_*.py; do
    counts python3 "$test"
done
echo "$passed passed, $failed failed"
[ "$failed" -eq 0 ]
