#!/bin/sh
# Prints how much there is to read: lines without comments and empty lines. First code, definitions and proofs of the library's
# crates; then the files that a user trusts in addition to the proof, in plain Rust and in C.
set -eu
cd "$(dirname "$0")/../.."

# lines NAME COMMENT FILE..: prints the name and the lines of the files; COMMENT is a pattern of comment lines
lines() {
    name=$1 comment=$2
    shift 2
    printf '%s: %s\n' "$name" "$(cat "$@" | grep -vcE "^[[:space:]]*($comment|\$)")"
}

for part in src:rt specs:antt proofs:antt; do
    # shellcheck disable=SC2046
    lines "${part%:*}" '//|--' $(git ls-files "crates/codec_payload_*/${part%:*}/*.${part#*:}")
done
clauses=$(git ls-files 'crates/codec_payload_*/src/*.rt' | xargs cat | grep -cE '^[[:space:]]*(requires|ensures|ghost)\b')
printf 'contracts and ghost items in src: %s\n' "$clauses"
# shellcheck disable=SC2046
{
    lines 'Rust: eraser' '#' $(git ls-files 'tools/eraser/*.py')
    lines 'Rust: lib.rs and memory.rs' '//' rust/src/lib.rs rust/src/memory.rs
    lines 'Rust: ext' '//' $(git ls-files 'rust/src/ext*')
    lines 'Rust: sdp' '//' $(git ls-files 'rust/src/sdp*')
    lines 'C: calls.c' '/?[*]' c/src/calls.c
    lines 'C: memory.c' '/?[*]' c/src/memory.c
    lines 'C: sdp.c' '/?[*]' $(git ls-files 'c/src/sdp*')
    lines 'C: assembly.py' '#' scripts/assembly.py
}
