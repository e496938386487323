#!/bin/sh
# Compares the ABI of the shared library with packaging/codec_payload.abi, the description of the last release's ABI.
#
#   packaging/abi.sh         a call, a struct or a number that is gone or changed fails; new calls, structs and numbers do not
#   packaging/abi.sh dump    writes packaging/codec_payload.abi, with a release that has another soname, or the first of its soname
#
# What it compares are the exports of the library and, by the debug information of c/src/calls.c, their parameters, structs and numbers.
# Before it compares it finds a struct that grew, so a comparison that sees nothing fails. Needs make, a C compiler, and abidw and
# abidiff (Debian: abigail-tools); without these it says so. docs/use/C.md has the rules. The last line says what passed.
set -eu
root=$(cd "$(dirname "$0")/.." && pwd)
kept=$root/packaging/codec_payload.abi
work=$(mktemp -d)
trap 'rm -rf "$work"' EXIT
cd "$root"

fail() {
    echo "$1" >&2
    exit 1
}

command -v abidw >/dev/null && command -v abidiff >/dev/null || {
    echo "abi: without abigail-tools, so not compared"
    exit 0
}

# described FOLDER FILE: what the library says that is built of the headers in FOLDER
described() {
    rm -rf "$work/out"
    make -s out="$work/out" CFLAGS="-O1 -g -gdwarf-4 -I$1" shared >"$work/log" 2>&1 || {
        cat "$work/log" >&2
        fail "the library is not built"
    }
    abidw --no-show-locs --no-corpus-path --no-comp-dir-path --no-architecture --no-elf-needed --drop-undefined-syms \
        --type-id-style hash --out-file "$2" "$work/out"/libcodec_payload.so.*
}

# same FILE: the dump of the last release has no item that is now missing or changed
same() {
    abidiff --no-added-syms "$kept" "$1"
}

[ "${1:-}" != dump ] || {
    described include "$kept"
    echo "abi: packaging/codec_payload.abi is written"
    exit 0
}
mkdir "$work/grown"
cp include/* "$work/grown"
sed -i 's/^    bool contiguous; .*/&\n    uint64_t one_more;/' "$work/grown/codec_payload.h"
described "$work/grown" "$work/grown.abi"
! same "$work/grown.abi" >"$work/told" 2>&1 && grep -q cpay_unit "$work/told" || fail "a cpay_unit that grew is not found"
described include "$work/found.abi"
same "$work/found.abi" || fail "the ABI is not that of packaging/codec_payload.abi: docs/use/C.md has the rules"
calls=$(grep -c 'type=.func-type' "$work/found.abi" || true)
echo "abi: $calls calls, nothing of the last release is gone or changed"
