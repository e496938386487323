#!/bin/sh
# Installs what live_server is built with, as packages of Debian: OpenSSL, libsrtp2, libmicrohttpd and libavformat. With `--tests` also
# Chromium and ffmpeg. As root.
set -eu
export DEBIAN_FRONTEND=noninteractive
apt-get update
apt-get install -y --no-install-recommends gcc make pkg-config libssl-dev libsrtp2-dev libmicrohttpd-dev libavformat-dev \
    libavcodec-dev libavutil-dev
if [ "${1:-}" = --tests ]; then apt-get install -y --no-install-recommends python3 chromium ffmpeg; fi
