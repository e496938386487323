#!/bin/sh
# Tests python/, the package for Python over the library for C.
#
#   scripts/python.sh
#
# `pip wheel` builds a wheel, without a network, and the tests run over what it installs: pytest, the examples, captures of Chromium, and
# aiortc over losses. Then frames beside aiortc's own jitter buffer (python/examples/compare_aiortc.py). mypy reads the types if it is installed.
#
# Needs Debian's python3 with python3-cffi, python3-pip, python3-setuptools, python3-wheel, python3-dev and python3-pytest, a C compiler
# and make; without python3-aiortc its tests are left out. Missing packages are installed if that is allowed; otherwise nothing is
# tested, and the last line says so. The last line says what passed; the status is 0 if all did.
set -eu

root=$(cd "$(dirname "$0")/.." && pwd)
python=${PYTHON:-/usr/bin/python3}
work=$(mktemp -d)
trap 'rm -rf "$work"' EXIT
packages="python3-cffi python3-pip python3-setuptools python3-wheel python3-dev python3-pytest"

has() {
    "$python" -c "import setuptools, cffi, pip, pytest, sys, wheel; open(sys.base_prefix + '/include/python3.%d/Python.h' % sys.version_info[1])"
}

# step WORDS..: one command, whose output is shown if it fails
step() {
    "$@" >"$work/log" 2>&1 || {
        cat "$work/log"
        echo "python: $* failed"
        exit 1
    }
}

if [ "$(id -u)" -eq 0 ] && command -v apt-get >/dev/null && ! { has && "$python" -c 'import aiortc'; } 2>/dev/null; then
    # shellcheck disable=SC2086
    DEBIAN_FRONTEND=noninteractive apt-get install -qq -y --no-install-recommends $packages python3-aiortc >/dev/null 2>&1 || true
fi
if ! has 2>/dev/null; then
    echo "python: skipped, since one of these is not installed: $packages"
    exit 0
fi
cp -r "$root/python" "$work/source"
rm -rf "$work/source/build"
step env "CODEC_PAYLOAD_ROOT=$root" "$python" -m pip wheel --quiet --no-build-isolation --no-deps --no-index --wheel-dir "$work/wheels" "$work/source"
step "$python" -m pip install --quiet --no-deps --no-index --target "$work/site" "$work/wheels"/*.whl
export PYTHONPATH="$work/site" PYTHONDONTWRITEBYTECODE=1
cd "$work"
types=
if "$python" -c 'import mypy' 2>/dev/null; then
    step "$python" -m mypy --strict "$work/site/codec_payload"
    types=", types by mypy"
fi
step "$python" -m pytest -q -p no:cacheprovider "$root/python/tests"
tests=$(tail -n 1 "$work/log" | sed 's/ in .*//')
captures=$root/tools/rtp_record/captures
step "$python" "$root/python/examples/receive_capture.py" "$captures/chromium-vp8.pcap" "$captures/chromium-vp8.sdp"
beside="without aiortc"
if "$python" -c 'import aiortc' 2>/dev/null; then
    step "$python" "$root/python/examples/receive_aiortc.py" 0.05
    step "$python" "$root/python/examples/compare_aiortc.py" 300
    beside=$(tail -n 1 "$work/log")
fi
echo "python: $tests$types; $beside"
