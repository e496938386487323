#!/bin/sh
# Tests the library for C: the one from c/generated, as `make` builds it, and the archive that rt proves and builds, side by
# side.
#
#   scripts/bindings.sh            all that stands below
#   scripts/bindings.sh proved     proves the library, builds c/out/proved/libcodec_payload.a, and prints that folder
#
# The tests. The assembly belongs to these sources, and a new run of the script makes the same (scripts/assembly.py check). The
# header agrees with the library; it compiles as C99 and C11 and, if there is a C++ compiler, as C++11 and C++20; the compiler
# detects a struct of the wrong type, and an ignored status. `make check` (c/tests/check.sh says what runs) over both archives; over
# the assembly also with the address and undefined-behaviour sanitizers, over jemalloc and mimalloc, and for AArch64 by qemu.
# The header for C++ (c/tests/plus.cpp). The ABI (packaging/abi.sh). If there is cargo: scripts of payload_vectors through each library,
# compared byte for byte with the program over the generated Rust crate (c/tests/vectors.c, c/tests/inputs.py, tools/lines); the calls beside
# those of the crate (tools/twin); and changed session descriptions read by c/src/sdp.c and by the crate. If there is Go: the example in
# Go (examples/go). The installed files (install_test.sh).
#
# Needs a C compiler ($CC or cc) with its sanitizers, make, binutils and Python 3; for tools/lines and tools/twin cargo; for the
# installed files pkg-config and a C++ compiler; for AArch64 gcc-aarch64-linux-gnu and qemu-user. No network. Without rt the
# archive from rt is left out, and the last line says so. That line says what passed; the status is 0 if all did.
set -eu

root=$(cd "$(dirname "$0")/.." && pwd)
out=$root/c/out
compiler=${CC:-cc}
warnings="-pedantic -Wall -Wextra -Wconversion -Werror"
work=$(mktemp -d)
trap 'rm -rf "$work"' EXIT
mkdir -p "$out/proved"

fail() {
    echo "$1" >&2
    exit 1
}

# step WORDS..: one command, whose output is shown if it fails
step() {
    "$@" >"$work/log" 2>&1 || {
        cat "$work/log" >&2
        fail "$* failed"
    }
}

# One archive of the library as rt builds it, of c/src/calls.c over it, of the other C in c/src but memory.c, and of the kit's three functions that call
# malloc, realloc and free. It exports only the calls of the header: the proved calls are named proved_* and become local.
build_proved() {
    kit=$(dirname "$(rt doc)")
    "$root/scripts/kit.py" free || fail "another rt works in this copy"
    (cd "$root/crates/codec_payload_c" && "$root/scripts/kit.py" rt lib) >"$work/lib.log" 2>&1 || {
        cat "$work/lib.log" >&2
        fail "the library is not proved"
    }
    rm -f "$out/proved/libcodec_payload.a"
    for name in calls objects bindings sdp; do
        "$compiler" -std=c99 $warnings -O2 -fPIC -I"$root/include" -c "$root/c/src/$name.c" -o "$work/$name.o" || fail "$name.c is not compiled"
    done
    (cd "$work" && cp "$root/crates/codec_payload_c/out/libcodec_payload_c.a" "$kit/c/liblibc_c.a" . &&
            nm --defined-only --extern-only libcodec_payload_c.a | sed -n 's/.* \(cpay_[a-z0-9_]*\)$/\1 proved_\1/p' >names &&
            objcopy --redefine-syms=names libcodec_payload_c.a &&
            printf 'CREATE all.a\nADDLIB libcodec_payload_c.a\nADDLIB liblibc_c.a\nADDMOD calls.o\nADDMOD objects.o\nADDMOD bindings.o\nADDMOD sdp.o\nSAVE\nEND\n' | ar -M &&
            ld -r --whole-archive all.a -o all.o && objcopy --wildcard --keep-global-symbol='cpay_*' all.o codec_payload.o &&
            ar rcs "$out/proved/libcodec_payload.a" codec_payload.o) || fail "the archive is not made"
}

# Runs every script through the library, by the program $1 of c/tests/vectors.c, and through payload_vectors of tools/lines; both answer
# the same bytes and the same status.
compare_scripts() {
    count=0
    for script in "$work/scripts"/*; do
        status=0
        "$root/tools/lines/target/release/payload_vectors" <"$script" >"$work/wanted" 2>"$work/wanted-messages" || status=$?
        found=0
        "$1" <"$script" >"$work/found" 2>"$work/found-messages" || found=$?
        [ "$status" -eq "$found" ] && cmp -s "$work/wanted" "$work/found" &&
            cmp -s "$work/wanted-messages" "$work/found-messages" || {
            cp "$script" "$out/differs"
            fail "$1 answers another output or status to $(basename "$script"), which is kept as c/out/differs"
        }
        count=$((count + 1))
    done
}

# refuses WORDS: the compiler reports that mistake in one call
refuses() {
    printf '#include "codec_payload.h"\nvoid mistake(cpay_packetizer *packetizer, cpay_buffer *buffer, cpay_unit *unit);\n%s%s%s' \
        'void mistake(cpay_packetizer *packetizer, cpay_buffer *buffer, cpay_unit *unit) { (void)packetizer; (void)buffer; ' \
        "$1" '; }' >"$work/mistake.c"
    ! "$compiler" -std=c99 $warnings -c -I"$root/include" "$work/mistake.c" -o "$work/mistake.o" 2>/dev/null || fail "$1: compiles"
}

# The headers as each standard, and mistakes that a compiler finds.
check_headers() {
    "$root/c/check_header.py" || fail "the header and the library differ"
    for header in "$root/include"/*.h; do
        for standard in c99 c11; do
            "$compiler" -std=$standard $warnings -fsyntax-only -x c "$header" || fail "$header is no $standard"
        done
    done
    refuses 'cpay_buffer_pop(buffer, unit, NULL, 0)'
    refuses 'if (cpay_buffer_pop(packetizer, unit, NULL, 0)) return'
    ! (refuses 'if (cpay_buffer_pop(buffer, unit, NULL, 0)) return') 2>/dev/null || fail "the compiler refuses what is right"
    command -v "$plus" >/dev/null || return 0
    for header in "$root/include"/*.h; do
        for standard in c++11 c++20; do
            "$plus" -std=$standard $warnings -fsyntax-only -x c++ "$header" || fail "$header is no $standard"
        done
    done
}

# Runs the tests over allocators that align small blocks to less than 16 bytes, if they are installed.
run_other_allocators() {
    for library in libjemalloc.so.2 libmimalloc.so.2.0; do
        path=$(find /usr/lib -name "$library" 2>/dev/null | head -n 1)
        [ -n "$path" ] || continue
        for name in checks datagrams lending session history forward waiting congestion rtcp packets values; do
            LD_PRELOAD=$path "$out/tests/$name" >/dev/null || fail "$name.c failed over $library"
        done
        allocators="$allocators, $library"
    done
}

case ${1:-all} in
proved)
    command -v rt >/dev/null || fail "rt is not there"
    build_proved
    echo "$out/proved"
    exit 0
    ;;
all) ;;
*) fail "usage: scripts/bindings.sh [proved]" ;;
esac
command -v "$compiler" >/dev/null || fail "there is no C compiler; set CC"
plus=${CXX:-c++}
cd "$root"
step scripts/assembly.py check
assembly=$(tail -n 1 "$work/log")
check_headers
step make check check-sanitized strict=-Werror
! command -v "$plus" >/dev/null || step make check-plus strict=-Werror
allocators="the C library's allocator"
run_other_allocators
proved="without rt, so without the archive that rt builds"
if command -v rt >/dev/null; then
    build_proved
    step make check LIBRARY=c/out/proved/libcodec_payload.a tests=c/out/proved/tests
    proved="the archive that rt builds"
fi
arm="without gcc-aarch64-linux-gnu and qemu-user, so not for AArch64"
if command -v aarch64-linux-gnu-gcc >/dev/null && command -v qemu-aarch64 >/dev/null; then
    step make check-aarch64 strict=-Werror
    arm="AArch64 by qemu"
fi
twin="without cargo, so without tools/lines and tools/twin"
if command -v cargo >/dev/null; then
    step cargo build --offline --quiet --release --manifest-path tools/lines/Cargo.toml
    c/tests/inputs.py "$work/scripts" >/dev/null
    for tests in tests tests-sanitized proved/tests; do
        case $tests in
        proved/*) command -v rt >/dev/null || continue ;;
        esac
        compare_scripts "$out/$tests/vectors"
    done
    (cd tools/twin && cargo run --offline --quiet --release -- 20000) >"$work/twin" 2>&1 || {
        cat "$work/twin" >&2
        fail "the library and the generated Rust crate differ"
    }
    twin="$count scripts; $(tail -n 1 "$work/twin")"
    for given in c/tests/sdp/*.sdp; do
        "$out/tests/descriptions" changed 3000 <"$given" >"$work/wanted"
        (cd tools/twin && cargo run --offline --quiet --release -- changed 3000) <"$given" >"$work/found"
        cmp "$work/wanted" "$work/found" || fail "C and Rust read a changed copy of $given differently"
    done
    twin="$twin; session descriptions in C and Rust"
fi
go="without Go, so without examples/go"
if command -v go >/dev/null; then
    step sh -c 'cd examples/go && test -z "$(gofmt -l .)" && GOFLAGS=-mod=mod GOPROXY=off CGO_ENABLED=1 go test -count=1 .'
    go="the example in Go"
fi
step packaging/abi.sh
abi=$(tail -n 1 "$work/log")
step packaging/install_test.sh
installed=$(tail -n 1 "$work/log" | sed "s/: all passed$//")

echo "C: $assembly; the headers, the tests with and without sanitizers, over $allocators; $proved; $arm; $go; $abi; $twin; $installed:" \
    "all passed"
