#!/bin/sh
# Installs what rtp_record is built and tested with, as packages of Debian: libpcap and libavformat for the program, ffmpeg for the
# tests. As root.
set -eu
export DEBIAN_FRONTEND=noninteractive
apt-get update
apt-get install -y --no-install-recommends gcc make pkg-config python3 libpcap-dev libavformat-dev libavcodec-dev libavutil-dev ffmpeg
