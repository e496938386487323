#!/bin/sh
# Installs what the plugin is built with, as packages of Debian. With `--tests` also the elements that its tests and the pipelines of
# docs/use/GSTREAMER.md use. As root.
set -eu
export DEBIAN_FRONTEND=noninteractive
apt-get update
apt-get install -y --no-install-recommends gcc make pkg-config libgstreamer1.0-dev libgstreamer-plugins-base1.0-dev gstreamer1.0-tools
if [ "${1:-}" = --tests ]; then
    apt-get install -y --no-install-recommends python3 gstreamer1.0-plugins-base gstreamer1.0-plugins-good gstreamer1.0-plugins-bad \
        gstreamer1.0-libav
fi
