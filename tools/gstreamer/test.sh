#!/bin/bash
# Tests the plugin without a network beyond the loopback: tools/gstreamer/test.sh, after `make` here. Each line says what was compared. The
# last line has the counts. ./install.sh --tests installs what it needs.
#
# - tests/elements.c: packets written by hand, under GStreamer's tracer of leaks, and with the address and undefined-behaviour sanitizers if
#   `make sanitized` was called; then also tests/stress.c, an application that misbehaves
# - encoders through payloaders and sessions, beside GStreamer's own payloaders and depayloaders: the same bytes
# - captures, most of them calls of Chromium: each frame beside the list of the sender
# - the pipelines of docs/use/GSTREAMER.md (tests/pipelines.py)
set -u
cd "$(dirname "$0")" || exit 2
export GST_PLUGIN_PATH=$PWD GST_DEBUG_NO_COLOR=1
work=$(mktemp -d)
export GST_REGISTRY=$work/registry.bin
trap 'rm -rf "$work"' EXIT
passed=0
failed=0
result() { # STATUS TEXT
    if [ "$1" -eq 0 ]; then passed=$((passed + 1)); else failed=$((failed + 1)) && echo "FAILED: $2"; fi
}
launch() { timeout 120 gst-launch-1.0 -q "$@"; }
same() { # NAME FILE FILE
    [ -s "$2" ] && cmp -s "$2" "$3"
    result $? "$1"
}

# ---- elements by themselves ----
for element in cpaysession cpaysend cpayforward cpayvp8pay cpayvp9pay cpayav1pay cpayopuspay cpaypcmupay cpaypcmapay cpayg722pay cpayamrwbpay; do
    gst-inspect-1.0 $element >"$work/said" 2>&1 && grep -q "Origin URL *codec-payload-core" "$work/said"
    result $? "gst-inspect-1.0 $element"
done
GST_TRACERS=leaks timeout 300 tests/elements >"$work/elements" 2>&1
status=$?
[ $status -eq 0 ] || cat "$work/elements"
result $status "tests/elements"
if [ -f libgstcodecpayload-sanitized ]; then
    mkdir "$work/sanitized"
    cp libgstcodecpayload-sanitized "$work/sanitized/libgstcodecpayload.so"
    sanitized() { # COMMAND..
        GST_PLUGIN_PATH=$work/sanitized GST_REGISTRY=$work/sanitized.bin GST_REGISTRY_FORK=no G_SLICE=always-malloc \
            ASAN_OPTIONS=detect_leaks=0 LD_PRELOAD=$(cc -print-file-name=libasan.so) timeout 300 "$@"
    }
    sanitized tests/elements >"$work/elements" 2>&1
    status=$?
    [ $status -eq 0 ] || cat "$work/elements"
    result $status "tests/elements with sanitizers"
    for seed in 1 2; do
        sanitized tests/stress ../rtp_record/captures $seed 6 >"$work/said" 2>&1
        status=$?
        [ $status -eq 0 ] || cat "$work/said"
        result $status "tests/stress $seed with sanitizers"
    done
fi

# ---- the bytes of encoders ----
picture="video/x-raw,format=I420,width=160,height=120,framerate=30/1"
video() { # NAME ENCODER PAY DEPAY
    launch videotestsrc pattern=ball num-buffers=20 ! $picture ! $2 ! tee name=t \
        t. ! queue ! filesink location="$work/$1.ref" \
        t. ! queue ! "cpay$1pay" ! tee name=p \
        p. ! queue ! cpaysession ! filesink location="$work/$1.ours" \
        p. ! queue ! "$4" ! filesink location="$work/$1.theirs" \
        t. ! queue ! "$3" ! cpaysession ! filesink location="$work/$1.from"
    same "$1: encoder, cpay$1pay, cpaysession" "$work/$1.ref" "$work/$1.ours"
    same "$1: encoder, cpay$1pay, $4" "$work/$1.ref" "$work/$1.theirs"
    same "$1: encoder, $3, cpaysession" "$work/$1.ref" "$work/$1.from"
}
video vp8 "vp8enc deadline=1 cpu-used=8" rtpvp8pay rtpvp8depay
video vp9 "vp9enc deadline=1 cpu-used=8" rtpvp9pay rtpvp9depay
audio() { # NAME RATE SAMPLES ENCODER PAY
    launch audiotestsrc wave=sine num-buffers=50 samplesperbuffer="$3" ! "audio/x-raw,rate=$2,channels=1" ! $4 ! tee name=t \
        t. ! queue ! filesink location="$work/$1.ref" \
        t. ! queue ! "cpay$1pay" ! cpaysession ! filesink location="$work/$1.ours" \
        t. ! queue ! ${5:-fakesink} ${5:+! cpaysession ! filesink location="$work/$1.from"}
    same "$1: encoder, cpay$1pay, cpaysession" "$work/$1.ref" "$work/$1.ours"
    [ -z "${5:-}" ] || same "$1: encoder, $5, cpaysession" "$work/$1.ref" "$work/$1.from"
}
audio opus 48000 960 opusenc rtpopuspay
audio pcmu 8000 160 mulawenc rtppcmupay
audio pcma 8000 160 alawenc rtppcmapay
audio g722 16000 320 avenc_g722 rtpg722pay
audio amrwb 16000 320 voamrwbenc

# ---- captures; chromium-fec has its video in RED with FEC, which a session does not take ----
captures=../rtp_record/captures
for name in chromium-vp8 chromium-vp9 chromium-av1 chromium-layers chromium-av1-layers chromium-change vp8 vp9 opus pcmu pcma g722; do
    pad=video_0
    case $name in opus | pcmu | pcma | g722) pad=audio_0 ;; esac
    list=$captures/$name.md5
    [ -f "$list" ] || list=$captures/$name.video.md5
    mkdir "$work/$name"
    launch filesrc location="$captures/$name.pcap" ! pcapparse ! cpaysession sdp="$captures/$name.sdp" undecodable=mark name=s \
        s.$pad ! multifilesink location="$work/$name/%05d"
    tests/frames.py "$name" "$list" "$work/$name" >"$work/said"
    result $? "$(cat "$work/said")"
done

# ---- the pipelines of the page ----
tests/pipelines.py "$work" >"$work/said" 2>&1
status=$?
[ $status -eq 0 ] || cat "$work/said"
result $status "tests/pipelines.py"

echo "$passed passed, $failed failed; $(tail -n 1 "$work/said")"
[ "$failed" -eq 0 ]
