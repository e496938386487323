#!/bin/sh
# Tests rust/ and rust-c/ with rustc 1.85, the oldest that rust/Cargo.toml allows, and on processors other than x86-64.
#
#   scripts/targets.sh         all tests of Rust with rustc 1.85 on x86-64 and on i686; on AArch64, armv7 and s390x (big endian), by
#                              qemu, the tests of $short; then all C tests over plain Rust (make PLAIN=1 check) on each
#   scripts/targets.sh all     all tests on each
#   scripts/targets.sh NAME..  all tests on these: x86-64, i686, aarch64, armv7, s390x
#   scripts/targets.sh c NAME..  the C tests alone, on these or on each
#
# The compiler and its libraries are those of Debian 12 (rustc-web 1.85). They are unpacked below rust/target, 0.9 GB, and the
# machine's own compiler and list of packages stay as they are. All but x86-64 need Debian's cross compilers as linkers, and
# all but i686 qemu-user; the packages are installed if that is allowed, and a target without them is skipped, with a line that
# says so. Overflow checks are on, as in each test of cargo. i686 and armv7 have a usize of 32 bits: feature `unproved-width`.
#
# The last line says what passed; the status is 0 if all did.
set -eu

root=$(cd "$(dirname "$0")/.." && pwd)
tools=$root/rust/target/rustc-1.85
sysroot=$tools/root/usr
# Each format, packets, the receiver, the sender, RTCP, resending and forwarding. Sessions and whole runs take minutes in qemu.
short="codecs datagrams forward history rtcp sender"
# The compiler for x86-64, and its library for each processor.
parts="rustc-web:amd64=1.85* cargo-web:amd64=1.85* libstd-rust-web-1.85:amd64 libllvm19:amd64 libhttp-parser2.9:amd64"
for processor in amd64 i386 arm64 armhf s390x; do
    parts="$parts libstd-rust-web-dev:$processor=1.85*"
done

# packages WORDS..: apt-get with a list of packages of its own, and the packages of five processors
packages() {
    apt-get -qq -o Dir::Etc::SourceList="$tools/sources.list" -o Dir::Etc::SourceParts=/dev/null -o Dir::State::Lists="$tools/lists" \
        -o Dir::Cache="$tools/cache" -o APT::Sandbox::User=root -o APT::Architectures::=amd64 -o APT::Architectures::=i386 \
        -o APT::Architectures::=arm64 -o APT::Architectures::=armhf -o APT::Architectures::=s390x "$@"
}

# Unpacks the compiler, once.
unpack() {
    [ ! -f "$tools/unpacked" ] || return 0
    rm -rf "$tools"
    mkdir -p "$tools/lists/partial" "$tools/cache/archives/partial" "$tools/archives" "$tools/root"
    # Debian 12 as the machine has it, without its later suites.
    site=$(apt-get indextargets --format '$(SITE) $(RELEASE)' | awk '$2 == "bookworm" { print $1; exit }')
    [ -n "$site" ] || return 1
    echo "deb [signed-by=/usr/share/keyrings/debian-archive-keyring.gpg] $site bookworm main" >"$tools/sources.list"
    packages update && (cd "$tools/archives" && packages download $parts) || return 1
    for archive in "$tools/archives"/*.deb; do
        dpkg -x "$archive" "$tools/root" || return 1
    done
    rm -rf "$tools/archives" "$tools/cache" "$tools/lists"
    touch "$tools/unpacked"
}

# needs COMMAND FILE PACKAGE..: installs the packages if the command or the file is missing
needs() {
    tool=$1 file=$2
    shift 2
    { command -v "$tool" >/dev/null && [ -e "$file" ]; } ||
        { [ "$(id -u)" -eq 0 ] && DEBIAN_FRONTEND=noninteractive apt-get install -qq -y --no-install-recommends "$@" >/dev/null 2>&1; }
}

# The target of rustc for one of the names above, what links for it, what runs its programs (`loader` those of C), and the features.
describe() {
    features=""
    runner="env"
    case $1 in
    x86-64) target=x86_64-unknown-linux-gnu linker=cc loader= ;;
    i686)
        target=i686-unknown-linux-gnu linker=i686-linux-gnu-gcc features=unproved-width
        loader="/usr/i686-linux-gnu/lib/ld-linux.so.2 --library-path /usr/i686-linux-gnu/lib"
        needs $linker /usr/i686-linux-gnu/lib/libc.a gcc-i686-linux-gnu libc6-dev-i386-cross
        ;;
    aarch64)
        target=aarch64-unknown-linux-gnu linker=aarch64-linux-gnu-gcc runner=qemu-aarch64
        loader="qemu-aarch64 -L /usr/aarch64-linux-gnu"
        needs $linker /usr/aarch64-linux-gnu/lib/libc.a gcc-aarch64-linux-gnu libc6-dev-arm64-cross && needs $runner / qemu-user
        ;;
    armv7)
        target=armv7-unknown-linux-gnueabihf linker=arm-linux-gnueabihf-gcc runner=qemu-arm features=unproved-width
        loader="qemu-arm -L /usr/arm-linux-gnueabihf"
        needs $linker /usr/arm-linux-gnueabihf/lib/libc.a gcc-arm-linux-gnueabihf libc6-dev-armhf-cross && needs $runner / qemu-user
        ;;
    s390x)
        target=s390x-unknown-linux-gnu linker=s390x-linux-gnu-gcc runner=qemu-s390x
        loader="qemu-s390x -L /usr/s390x-linux-gnu"
        needs $linker /usr/s390x-linux-gnu/lib/libc.a gcc-s390x-linux-gnu libc6-dev-s390x-cross && needs $runner / qemu-user
        ;;
    *)
        echo "targets: no target $1" >&2
        exit 2
        ;;
    esac
}

# tested NAME WORDS..: the number of tests that passed on that target; the words go to cargo
tested() {
    name=$1
    shift
    key=$(echo "$target" | tr 'a-z-' 'A-Z_')
    env "LD_LIBRARY_PATH=$sysroot/lib/x86_64-linux-gnu" "RUSTC=$sysroot/bin/rustc" "RUSTDOC=$sysroot/bin/rustdoc" \
        "CARGO_TARGET_DIR=$root/rust/target/1.85" "CARGO_TARGET_${key}_LINKER=$linker" "CARGO_TARGET_${key}_RUNNER=$runner" \
        "CARGO_TARGET_${key}_RUSTFLAGS=-C target-feature=+crt-static" CARGO_NET_OFFLINE=true \
        "$sysroot/bin/cargo" test --quiet --target "$target" --features "$features" "$@" >"$work/$name" 2>&1 || {
        cat "$work/$name" >&2
        echo "targets: $name failed" >&2
        exit 1
    }
    sed -n 's/^test result: ok. \([0-9]*\) passed.*/\1/p' "$work/$name" | awk '{ sum += $1 } END { print sum }'
}

# checked NAME: runs the C tests over plain Rust on that target, and prints how many programs passed
checked() {
    make -C "$root" --no-print-directory PLAIN=1 check "out=c/out/plain-$1" "CC=$linker" "RUN=$loader" "RUST_TARGET=$target" \
        "RUST_FEATURES=$features" "CARGO=env LD_LIBRARY_PATH=$sysroot/lib/x86_64-linux-gnu RUSTC=$sysroot/bin/rustc $sysroot/bin/cargo" \
        >"$work/c-$1" 2>&1 || {
        cat "$work/c-$1" >&2
        echo "targets: C on $1 failed" >&2
        exit 1
    }
    sed -n 's/^check: \([0-9]* programs\), all passed/\1 of C/p' "$work/c-$1"
}

of_c=
[ "${1:-}" != c ] || {
    of_c=yes
    shift
}
chosen=${*:-all}
[ "$chosen" != all ] || chosen="x86-64 i686 aarch64 armv7 s390x"
work=$(mktemp -d)
trap 'rm -rf "$work"' EXIT
if ! command -v apt-get >/dev/null || ! unpack; then
    echo "targets: skipped, since rustc-web 1.85 of Debian 12 cannot be fetched"
    exit 0
fi
cd "$root/rust"
result=
for name in $chosen; do
    if ! describe "$name"; then
        result="$result; $name skipped, since its packages are not installed"
        continue
    fi
    selection=
    case "$#:$name" in
    0:aarch64 | 0:armv7 | 0:s390x) selection=$(printf -- '--test %s ' $short) ;;
    *:x86-64) ;;
    *) selection="--lib --tests" ;; # the examples are built on x86-64 alone
    esac
    # shellcheck disable=SC2086
    [ -n "$of_c" ] || result="$result; $name $(tested "$name" $selection) tests"
    result="$result; $name $(checked "$name")"
done
echo "targets: rustc 1.85${result}"
