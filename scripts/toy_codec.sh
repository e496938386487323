#!/bin/sh
# Adds the codec of docs/develop/toy_codec.patch to a copy of the repository, and tests the copy.
#
#   scripts/toy_codec.sh          as plain Rust and C: the copy is erased, frames of the codec come back (rust/tests/toy.rs of the
#                                 patch), and the header has what C programs name
#   scripts/toy_codec.sh prove    also with rt: the proofs of the crates that the patch touches, except the library for C
#
# The patch touches at most 20 files outside of the crate of the codec, not counting its test and the output of the eraser. The last
# line says how many; the status is 0 if all passed. If the patch does not apply, mend it: it is the example of
# docs/develop/ARCHITECTURE.md, "How to add a codec".
set -eu

root=$(cd "$(dirname "$0")/.." && pwd)
work=$(mktemp -d)
trap 'rm -rf "$work"' EXIT
copy=$work/copy
mkdir "$copy"

# step WORDS..: one command, whose output is shown if it fails
step() {
    "$@" >"$work/log" 2>&1 || {
        cat "$work/log"
        echo "toy_codec: $* failed"
        exit 1
    }
}

(cd "$root" && git ls-files -z | tar --null -T - -c) | tar -x -C "$copy"
cd "$copy"
step git apply -C1 docs/develop/toy_codec.patch
step tools/eraser/erase.py
export CARGO_NET_OFFLINE=true CARGO_TARGET_DIR="$work/target"
cd rust
step cargo test --quiet --test toy
step cargo test --quiet --lib
cd ..
step "${CC:-cc}" -std=c11 -Wall -Werror -fsyntax-only -Iinclude c/tests/vectors.c
if [ "${1:-}" = prove ]; then
    for crate in codec_payload_base codec_payload_audio codec_payload_codec codec_payload_buffer codec_payload_payloader \
        codec_payload_buffer_runs codec_payload_handle payload_vectors; do
        cd "$copy/crates/$crate"
        step rt check
    done
fi
files=$(grep '^diff --git' "$root/docs/develop/toy_codec.patch" | grep -cv -e ' b/crates/codec_payload_audio/' -e ' b/rust/tests/toy.rs')
[ "$files" -le 20 ] || {
    echo "toy_codec: the patch touches $files files outside of the codec's crate"
    exit 1
}
grep -q "It touches $files files" "$root/docs/develop/ARCHITECTURE.md" || {
    echo "toy_codec: docs/develop/ARCHITECTURE.md has another number than $files files"
    exit 1
}
echo "toy_codec: $files files outside of the codec's crate, all passed"
