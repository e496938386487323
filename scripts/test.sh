#!/bin/sh
# The test command: the proofs with everything that rt runs beside them, and then each script that tests the results.
#
#   scripts/test.sh              all of it
#   scripts/test.sh --no-proofs  the scripts alone, over what was proved before
#
# Needs rt, a C and a C++ compiler, make, binutils, pkg-config, Python 3, cargo and valgrind. Missing Debian packages are
# installed if that is allowed, and otherwise named before anything starts. The same applies to debhelper, lintian and doxygen;
# without them no Debian packages and manual pages are made. Without gcc-aarch64-linux-gnu and qemu-user the library for C is
# only tested natively; without abigail-tools its ABI is not compared; without libpcap, libavformat and ffmpeg the recorder is
# not tested. Without GStreamer's headers and plugins tools/gstreamer is not tested. Without ffmpeg the headers of frames are not
# compared with other readers; without Debian's packages of crates and
# the runtime of libFuzzer, rust-extras and tools/fuzz are not tested. Without Go, pion's interceptor and tshark no peer reads the
# packets of transport-wide feedback again. scripts/python.sh, scripts/systems.sh and scripts/targets.sh say what they need, and skip what lacks it. tools/live_server is built only if its libraries are installed. Chromium is never
# installed; without it no browser sends to a session or to live_server. The last line is `N passed, N failed`; the status is 0 if
# nothing failed.
set -u

root=$(cd "$(dirname "$0")/.." && pwd)
cd "$root" || exit 2
# Cargo's files for debuggers and for later builds take gigabytes, which a full disk lacks.
export CARGO_INCREMENTAL=0 CARGO_PROFILE_DEV_DEBUG=0
work=$(mktemp -d)
trap 'rm -rf "$work"' EXIT
passed=0
failed=0

# wants PACKAGE COMMAND..: installs the package if a command is missing
wants() {
    package=$1
    shift
    for tool in "$@"; do
        command -v "$tool" >/dev/null || absent="$absent $package"
    done
}

absent=
wants gcc cc
wants g++ c++
wants make make
wants binutils ld objcopy nm
wants pkg-config pkg-config
wants python3 python3
wants cargo cargo
wants valgrind valgrind
needed=$absent
pkg-config --exists libpcap 2>/dev/null || absent="$absent libpcap-dev"
pkg-config --exists libavformat 2>/dev/null || absent="$absent libavformat-dev libavcodec-dev libavutil-dev"
wants ffmpeg ffmpeg ffprobe
wants debhelper dh
wants dpkg-dev dpkg-buildpackage
wants fakeroot fakeroot
wants lintian lintian
wants doxygen doxygen
wants gcc-aarch64-linux-gnu aarch64-linux-gnu-gcc
[ -f /usr/aarch64-linux-gnu/include/stdio.h ] || absent="$absent libc6-dev-arm64-cross"
wants qemu-user qemu-aarch64
wants abigail-tools abidw abidiff
wants devscripts hardening-check
wants blhc blhc
wants golang-go go
[ -d /usr/share/gocode/src/github.com/pion/interceptor ] || absent="$absent golang-github-pion-interceptor-dev"
wants tshark tshark
find /usr/lib -name libjemalloc.so.2 2>/dev/null | grep -q . || absent="$absent libjemalloc2"
for name in bytes criterion proptest; do
    ls /usr/share/cargo/registry 2>/dev/null | grep -q "^$name-[0-9]" ||
        absent="$absent librust-bytes-dev librust-criterion-dev librust-proptest+default-dev"
done
find /usr/lib -name 'libclang_rt.fuzzer-x86_64.a' 2>/dev/null | grep -q . || absent="$absent libclang-rt-14-dev"
find /usr/lib -name libmimalloc.so.2.0 2>/dev/null | grep -q . || absent="$absent libmimalloc2.0"
if [ -n "$absent" ] && [ "$(id -u)" -eq 0 ] && command -v apt-get >/dev/null; then
    # shellcheck disable=SC2086
    { apt-get update && DEBIAN_FRONTEND=noninteractive apt-get install -y --no-install-recommends $absent; } >"$work/apt" 2>&1 ||
        echo "not installed:$absent"
    needed=$(for tool in cc c++ make ld objcopy nm pkg-config python3 cargo valgrind; do command -v "$tool" >/dev/null || echo "$tool"; done)
fi
command -v rt >/dev/null || needed="$needed rt"
if [ -n "$needed" ]; then
    echo "missing: $needed" >&2
    exit 2
fi

# runs WORDS..: one script, which counts as one test
runs() {
    began=$(date +%s)
    if "$@" >"$work/output" 2>&1; then
        passed=$((passed + 1))
        answer=ok
    else
        failed=$((failed + 1))
        cat "$work/output"
        answer=FAILED
    fi
    echo "$answer $* ($(($(date +%s) - began)) s): $(tail -n 1 "$work/output")"
}

# The quick checks come first: a fault that they find costs no proof.
runs scripts/kit.py layout
runs scripts/mutants.py --stale
runs scripts/documents.py --quick
runs scripts/statements.py --check
runs scripts/theorem.py --check
runs scripts/statement_plants.py
runs scripts/memory_lint.py
runs c/check_header.py
# Old lines of mutants/RESULTS.txt are no fault, but CI says how many there are.
echo "mutants whose counts are old or missing: $(scripts/mutants.py --missing | tail -n 1)"
# From nothing `rt ci` takes an hour and a half, and its last proofs leave processors idle. So it runs in the background, over what is
# kept of earlier runs on this machine (scripts/kept_ci.py), and beside it the scripts that read nothing which it writes and
# measure no time.
proofs=
if [ "${1:-}" != --no-proofs ]; then
    scripts/kit.py free || exit 1
    began_proofs=$(date +%s)
    setsid --wait scripts/kept_ci.py >"$work/proofs" 2>&1 &
    proofs=$!
    trap 'kill -- -$proofs 2>/dev/null; rm -rf "$work"' EXIT
    trap 'exit 130' INT TERM
fi
runs scripts/rust.sh beside
runs tests/vectors/feedback.py --check
runs scripts/targets.sh
runs scripts/toy_codec.sh
runs tools/measure/allocations.sh
runs scripts/python.sh
runs scripts/examples.py
runs tools/measure/forwarding.py
runs scripts/hostile.py
runs tools/measure/instructions.sh
runs tools/measure/receiving.py
if command -v ffmpeg >/dev/null; then
    runs tests/media/media_peers.py
else
    echo "skipped tests/media/media_peers.py: there is no ffmpeg"
fi
if [ -n "$proofs" ]; then
    wait "$proofs"
    trap 'rm -rf "$work"' EXIT
    cat "$work/proofs"
    echo "rt ci took at most $(($(date +%s) - began_proofs)) s"
    counts=$(tail -n 1 "$work/proofs")
    set -- $(printf '%s\n' "$counts" | sed -n 's/^\([0-9]*\) passed, \([0-9]*\) failed.*/\1 \2/p') '' ''
    [ "${1:-0}" -gt 0 ] || set -- 0 1
    [ "$2" -ne 0 ] || scripts/kit.py keep
    passed=$((passed + $1))
    failed=$((failed + $2))
fi
# These run what rt proved and built, or depend on time.
runs tests/vectors/process.py --proved
runs scripts/refuse.sh
runs scripts/bindings.sh
runs scripts/systems.sh
runs scripts/documents.py
runs scripts/rust.sh times
if pkg-config --exists libpcap libavformat libavcodec libavutil && command -v ffmpeg >/dev/null; then
    runs tools/rtp_record/test.sh
else
    echo "skipped tools/rtp_record/test.sh: tools/rtp_record/install.sh installs what it needs"
fi
if command -v chromium >/dev/null; then
    runs tools/chromium/chromium_peer.py
else
    echo "skipped tools/chromium/chromium_peer.py: there is no chromium"
fi
if pkg-config --exists openssl libsrtp2 libmicrohttpd libavformat libavcodec libavutil; then
    runs make -s -C tools/live_server all
    if command -v chromium >/dev/null && command -v ffmpeg >/dev/null; then
        # Some of its tests; `make -C tools/live_server check` has all.
        runs tools/live_server/test.py VP8-0 VP8-5 refusals sessions token reused full protect narrow steps
    else
        echo "skipped tools/live_server/test.py: there is no chromium or no ffmpeg"
    fi
else
    echo "skipped tools/live_server: tools/live_server/install.sh installs what it needs"
fi
if pkg-config --exists gstreamer-rtp-1.0 2>/dev/null || [ -f /usr/include/gstreamer-1.0/gst/rtp/rtp.h ]; then
    runs make -s -C tools/gstreamer all sanitized tests
    if command -v gst-launch-1.0 >/dev/null && gst-inspect-1.0 vp8enc pcapparse >/dev/null 2>&1; then
        runs tools/gstreamer/test.sh
    else
        echo "skipped tools/gstreamer/test.sh: tools/gstreamer/install.sh --tests installs what it needs"
    fi
else
    echo "skipped tools/gstreamer: tools/gstreamer/install.sh installs what it needs"
fi
echo "$passed passed, $failed failed"
[ "$failed" -eq 0 ]
