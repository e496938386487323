#!/bin/sh
# pkg-config --cflags or --libs of GStreamer's packages. gstreamer-1.0.pc names libunwind, which Debian's LLVM excludes; then the folders
# and libraries are named here.
what=$1
shift
if pkg-config --exists "$@" 2>/dev/null; then exec pkg-config "$what" "$@"; fi
case $what in
--cflags) echo "-I/usr/include/gstreamer-1.0 $(pkg-config --cflags gobject-2.0)" ;;
--libs)
    for package in "$@"; do
        case $package in
        gstreamer-1.0) printf -- '-lgstreamer-1.0 ' ;;
        gstreamer-*-1.0) name=${package#gstreamer-} && printf -- '-lgst%s ' "$name" ;;
        esac
    done
    pkg-config --libs gobject-2.0
    ;;
esac
