#!/bin/sh
# Installs the library for C into a fresh folder, and builds against the installed files, as users would.
#
#   packaging/install_test.sh    over the library as `make` builds it; also `make check-install`
#
# The archive and the shared library export only the calls of the header. The example is built by pkg-config, as C and as C++,
# against the shared library and against the archive, and by CMake if there is cmake; each prints the expected output. The same
# for the tarball of `make dist`, unpacked elsewhere and without rt, where `make check` passes. In the end all is uninstalled,
# and nothing is left. Both libraries request no executable stack and mark branches as protected. Manual pages are made and
# installed if there is doxygen. Debian packages are made if there are debhelper and doxygen, for arm64 too with its cross
# compiler: lintian finds no error in them, and hardening-check and blhc find no missing flag. They go into a fresh root, where
# the example is built; if there are libpcap and libavformat, the recorder lists and writes a capture of the repository.
#
# Needs make, a C and a C++ compiler, nm, readelf and pkg-config. The last line says what passed; the status is 0 if all did.
set -eu

root=$(cd "$(dirname "$0")/.." && pwd)
compiler=${CC:-cc}
plus=${CXX:-c++}
work=$(mktemp -d)
trap 'rm -rf "$work"' EXIT

fail() {
    echo "$1" >&2
    exit 1
}

for tool in make nm readelf pkg-config "$compiler" "$plus"; do
    command -v "$tool" >/dev/null || fail "$tool is not there"
done

# exports NM-FLAGS FILE: the names that a library exports, which must be the names of the header
exports() {
    sed -n '/^static inline /!s/^[A-Za-z0-9_ ]*[ *]\(cpay_[a-z0-9_]*\)(.*/\1/p' "$root/include/codec_payload.h" \
        "$root/include/codec_payload_media.h" "$root/include/codec_payload_sdp.h" "$root/include/codec_payload_bindings.h" |
        sort -u >"$work/wanted"
    nm --defined-only --extern-only $1 "$2" | sed -n 's/.* [A-Z] \([^@]*\).*/\1/p' | grep -v -x CODEC_PAYLOAD_0 |
        sort -u >"$work/found"
    cmp -s "$work/wanted" "$work/found" || {
        diff "$work/wanted" "$work/found" >&2 || true
        fail "$2 exports other names than those of the header"
    }
}

# prints PROGRAM: the example says how its one frame came back
prints() {
    LD_LIBRARY_PATH=$prefix/lib "$1" >"$work/printed" || fail "$1 did not end well"
    [ "$(sed -n 2p "$work/printed")" = "packets 65536 to 65538: a frame of 3000 bytes" ] || fail "$1 printed something else"
}

# builds_by_pkg_config SOURCE: as C and as C++, against the shared library and against the archive
builds_by_pkg_config() {
    export PKG_CONFIG_PATH="$prefix/lib/pkgconfig"
    flags=$(pkg-config --cflags codec-payload)
    libraries=$(pkg-config --libs codec-payload)
    "$compiler" -std=c11 $flags "$1" $libraries -o "$work/shared" || fail "the example is not built against the shared library"
    prints "$work/shared"
    "$compiler" -std=c11 $flags "$1" "$prefix/lib/libcodec_payload.a" -o "$work/static" || fail "the example is not built statically"
    prints "$work/static"
    "$plus" -std=c++20 -x c++ $flags "$1" -x none $libraries -o "$work/plus" || fail "the example is not built as C++"
    prints "$work/plus"
}

# builds_by_cmake SOURCE
builds_by_cmake() {
    command -v cmake >/dev/null || return 0
    rm -rf "$work/project" && mkdir "$work/project" && cp "$1" "$work/project/example.c"
    cat >"$work/project/CMakeLists.txt" <<'END'
cmake_minimum_required(VERSION 3.13)
project(example C)
find_package(codec-payload 0.1 REQUIRED)
add_executable(example example.c)
target_link_libraries(example codec-payload::codec-payload)
add_executable(example_static example.c)
target_link_libraries(example_static codec-payload::static)
END
    cmake -S "$work/project" -B "$work/project/build" -DCMAKE_PREFIX_PATH="$prefix" >"$work/cmake.log" 2>&1 &&
        cmake --build "$work/project/build" >>"$work/cmake.log" 2>&1 || {
        cat "$work/cmake.log" >&2
        fail "CMake does not build the example"
    }
    prints "$work/project/build/example"
    prints "$work/project/build/example_static"
}

# is_protected LIBRARY..: no executable stack, and the notes of CET or BTI in the archive
is_protected() {
    ! readelf -lW "$2" | grep -q 'GNU_STACK.*RWE' || fail "$2 asks for an executable stack"
    readelf -nW "$1" 2>/dev/null | grep -qE 'IBT, SHSTK|BTI, PAC' || fail "$1 does not say that its branches are protected"
}

# packages FOLDER TARGET OUT: Debian packages of it, in a fresh root, $work/TARGET
packages() {
    make -C "$1" "$2" >"$work/$2.log" 2>&1 || {
        tail -n 40 "$work/$2.log" >&2
        fail "there are no Debian packages"
    }
    if command -v lintian >/dev/null; then
        lintian --fail-on error "$1/$3"/*.deb >"$work/lintian.log" 2>&1 || {
            cat "$work/lintian.log" >&2
            fail "lintian finds errors"
        }
    fi
    mkdir -p "$work/$2/var/lib/dpkg/info" "$work/$2/var/lib/dpkg/updates"
    : >"$work/$2/var/lib/dpkg/status"
    PATH=$PATH:/usr/sbin:/sbin dpkg --root="$work/$2" --force-depends --force-architecture --no-triggers -i "$1/$3"/*.deb >"$work/dpkg.log" 2>&1 || {
        cat "$work/dpkg.log" >&2
        fail "the packages do not go into a fresh root"
    }
    [ -f "$work/$2/usr/share/man/man3/cpay_buffer_pop.3.gz" ] || fail "the manual pages are not packed"
}

# packs FOLDER: Debian packages of it, and the example against their files
packs() {
    command -v dh >/dev/null && command -v doxygen >/dev/null && command -v dpkg-buildpackage >/dev/null || return 0
    packages "$1" deb c/out
    folder=$(dirname "$(find "$work/deb" -name libcodec_payload.so.0)")
    if command -v hardening-check >/dev/null; then
        # The proved code has no arrays on its stack whose bounds a canary would guard, and no fortified calls. The notes of CET
        # are checked in the archive above: the shared library loses them to the start files of Debian 12, which have none.
        hardening-check --nopie --nostackprotector --nofortify --nocfprotection "$folder/libcodec_payload.so.0" >"$work/hardening" || {
            cat "$work/hardening" >&2
            fail "the shared library is not hardened as Debian asks"
        }
    fi
    ! command -v blhc >/dev/null || blhc --bindnow --ignore-line '.* -r -nostdlib .*' "$work/deb.log" >"$work/blhc" || {
        cat "$work/blhc" >&2
        fail "blhc misses flags in the build of the packages"
    }
    "$compiler" -std=c11 -I"$work/deb/usr/include" "$1/examples/first.c" -L"$folder" -lcodec_payload -o "$work/packed" &&
        LD_LIBRARY_PATH=$folder "$work/packed" >"$work/printed" || fail "the example fails against the Debian packages"
    packed=", the Debian packages"
    if pkg-config --exists libpcap libavformat libavcodec libavutil; then
        records "$folder"
        packed="$packed with the recorder"
    fi
    command -v aarch64-linux-gnu-gcc >/dev/null && command -v qemu-aarch64 >/dev/null || return 0
    packages "$1" deb-aarch64 c/out/aarch64
    folder=$(dirname "$(find "$work/deb-aarch64" -name libcodec_payload.so.0)")
    aarch64-linux-gnu-gcc -std=c11 -I"$work/deb-aarch64/usr/include" "$1/examples/first.c" -L"$folder" -lcodec_payload -o "$work/arm" &&
        qemu-aarch64 -L /usr/aarch64-linux-gnu -E LD_LIBRARY_PATH="$folder" "$work/arm" >"$work/printed" ||
        fail "the example fails against the Debian packages for arm64"
    packed="$packed and those for arm64"
}

# records FOLDER: the packed recorder lists and writes a capture over the shared library in that folder
records() {
    recorder=$work/deb/usr/bin/rtp_record
    for file in bin/rtp_record share/man/man1/rtp_record.1.gz share/bash-completion/completions/rtp_record; do
        [ -f "$work/deb/usr/$file" ] || fail "the package of the recorder lacks $file"
    done
    LD_LIBRARY_PATH=$1 ldd "$recorder" | grep -q "libcodec_payload.so.0 => $1/" || fail "the recorder is not linked against the library"
    LD_LIBRARY_PATH=$1 "$recorder" --help | grep -q '^usage: rtp_record' || fail "the recorder has no help"
    captures=$root/tools/rtp_record/captures
    LD_LIBRARY_PATH=$1 "$recorder" -q -s "$captures/vp8.sdp" -o "$work/recorded.ivf" "$captures/vp8.pcap" >"$work/listed" ||
        fail "the recorder does not read a capture"
    grep -q VP8 "$work/listed" || fail "the recorder lists no VP8"
    [ -s "$work/recorded.ivf" ] || fail "the recorder writes nothing"
}

# installs FOLDER: from there into $prefix, builds against it, and uninstalls
installs() {
    make -s -C "$1" install PREFIX="$prefix" || fail "it is not installed"
    exports "" "$prefix/lib/libcodec_payload.a"
    exports -D "$prefix/lib/libcodec_payload.so.0"
    is_protected "$prefix/lib/libcodec_payload.a" "$prefix/lib/libcodec_payload.so.0"
    builds_by_pkg_config "$1/examples/first.c"
    builds_by_cmake "$1/examples/first.c"
    make -s -C "$1" uninstall PREFIX="$prefix"
    [ -z "$(find "$prefix" ! -type d)" ] || fail "something is left of what was installed"
}

packed=
prefix=$work/prefix
installs "$root"
packs "$root"
make -s -C "$root" install PREFIX=/usr DESTDIR="$work/staged"
[ -f "$work/staged/usr/include/codec_payload.h" ] || fail "DESTDIR is not looked at"
grep -q -x prefix=/usr "$work/staged/usr/lib/pkgconfig/codec-payload.pc" || fail "DESTDIR stands in codec-payload.pc"
make -s -C "$root" dist
mkdir "$work/unpacked"
tar -xzf "$root"/c/out/codec-payload-*.tar.gz -C "$work/unpacked"
prefix=$work/other
PATH=/usr/bin:/bin
make -s -C "$work/unpacked"/codec-payload-* check >"$work/check.log" 2>&1 || {
    tail -n 40 "$work/check.log" >&2
    fail "make check fails in the unpacked tarball"
}
installs "$work/unpacked"/codec-payload-*

echo "install: exports, pkg-config, C++, CMake, the tarball$packed and the way back: all passed"
