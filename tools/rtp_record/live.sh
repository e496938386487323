#!/bin/sh
# Makes the captures of captures/ on loopback: ffmpeg, GStreamer and Chromium encode and send, and tcpdump captures. A file with the
# MD5 of each frame of the encoder is kept beside each capture.
#
#   ./live.sh [NAME..]     all captures, or those named
#   ./live.sh interface    tests the recorder on the loopback interface; makes no capture
#   ./live.sh gstreamer    compares with the frames that GStreamer reads from the captures; makes no capture
#
# As root. Packages of Debian: tcpdump ffmpeg chromium gstreamer1.0-tools gstreamer1.0-plugins-good gstreamer1.0-plugins-bad
set -eu
cd "$(dirname "$0")"
mkdir -p captures
port=15004

# capture NAME COMMAND..: what the command sends to the ports goes to captures/NAME.pcap
capture() {
    name=$1
    shift
    echo "$name"
    tcpdump -q -i lo -w "captures/$name.pcap" -U "udp and portrange $port-$((port + 3))" 2>/dev/null &
    dump=$!
    sleep 1
    "$@" >/dev/null 2>"captures/$name.log" || {
        cat "captures/$name.log" >&2
        kill $dump
        exit 1
    }
    rm -f "captures/$name.log"
    sleep 1
    kill $dump
    wait $dump 2>/dev/null || true
}

# call NAME WANTED: a call of Chromium; live/chromium.html reads WANTED
call() {
    echo "$1"
    python3 live/chromium.py captures "$1" "$2"
}

picture="-f lavfi -i testsrc2=size=160x120:rate=15:duration=4"
sound="-f lavfi -i sine=frequency=440:duration=4"

# sends NAME INPUT CODEC..: the encoder's frames are kept in a container first, and then sent as they are
sends() {
    name=$1 input=$2
    shift 2
    # shellcheck disable=SC2086
    ffmpeg -v error -y $input "$@" "captures/$name.mkv"
    ffmpeg -v error -y -i "captures/$name.mkv" -map 0 -c copy -f framemd5 "captures/$name.md5"
    capture "$name" ffmpeg -v error -re -i "captures/$name.mkv" -map 0 -c copy -strict experimental \
        -f rtp -sdp_file "captures/$name.sdp" "rtp://127.0.0.1:$port?pkt_size=600"
    rm -f "captures/$name.mkv"
}

# describes_red NAME SSRC: the session of GStreamer's stream in RED, which writes none itself (RFC 2198, section 5)
describes_red() {
    printf 'v=0\r\no=- 0 0 IN IP4 127.0.0.1\r\ns=-\r\nc=IN IP4 127.0.0.1\r\nt=0 0\r\nm=audio %s RTP/AVP 63 96\r\n' "$port" >"captures/$1.sdp"
    printf 'a=rtpmap:63 red/48000/2\r\na=fmtp:63 96/96\r\na=rtpmap:96 opus/48000/2\r\na=ssrc:%s cname:test\r\n' "$2" >>"captures/$1.sdp"
}

wanted=${*:-vp8 vp9 opus pcmu pcma g722 amrwb gstreamer-red chromium-vp8 chromium-vp9 chromium-av1 chromium-red chromium-keys chromium-fec chromium-change chromium-g722 chromium-layers chromium-av1-layers}
for name in $wanted; do
    case $name in
    interface | gstreamer) python3 "live/$name.py" ;;
    vp8) sends vp8 "$picture" -c:v libvpx -b:v 120k -g 30 -deadline realtime ;;
    vp9) sends vp9 "$picture" -c:v libvpx-vp9 -b:v 120k -g 30 -deadline realtime ;;
    opus) sends opus "$sound" -c:a libopus -b:a 24k ;;
    pcmu) sends pcmu "$sound" -ar 8000 -c:a pcm_mulaw ;;
    pcma) sends pcma "$sound" -ar 8000 -c:a pcm_alaw ;;
    g722) sends g722 "$sound" -ar 16000 -c:a g722 ;;
    amrwb)
        capture amrwb gst-launch-1.0 -q audiotestsrc num-buffers=200 samplesperbuffer=320 is-live=true ! \
            audio/x-raw,rate=16000,channels=1 ! voamrwbenc ! tee name=t ! queue ! rtpamrpay pt=97 ! \
            udpsink host=127.0.0.1 port=$port t. ! queue ! filesink location=captures/amrwb.frames
        ;;
    gstreamer-red) # the first packet lasts 648 ticks, all others 960
        capture gstreamer-red gst-launch-1.0 -q audiotestsrc num-buffers=200 samplesperbuffer=960 is-live=true ! \
            audio/x-raw,rate=48000,channels=2 ! opusenc bitrate=24000 ! rtpopuspay pt=96 ssrc=7340033 ! \
            rtpredenc pt=63 distance=2 ! udpsink host=127.0.0.1 port=$port
        describes_red gstreamer-red 7340033
        ;;
    chromium-vp8) call "$name" 'video=VP8,rtx&audio=opus&seconds=4' ;;
    chromium-vp9) call "$name" 'video=VP9,rtx&seconds=4' ;;
    chromium-av1) call "$name" 'video=AV1,rtx&seconds=4' ;;
    chromium-red) call "$name" 'audio=red,opus&seconds=3' ;;
    chromium-keys) call "$name" 'audio=opus,telephone-event&keys=1234%23&seconds=3' ;;
    chromium-fec) call "$name" 'video=VP8,rtx,red,ulpfec&seconds=3' ;;
    chromium-change) call "$name" 'video=VP8,VP9,rtx&then=VP9&seconds=3' ;;
    chromium-layers) call "$name" 'video=VP9&layers=L3T3&width=480&seconds=4&key=1500' ;;
    # the end of the call can cut the last picture: then its packets and its line among the frames are removed by hand
    chromium-av1-layers) call "$name" 'video=AV1&layers=L2T2&width=480&seconds=4&key=1500' ;;
    chromium-g722) call "$name" 'audio=G722,telephone-event,CN&keys=19&seconds=3' ;;
    *)
        echo "$name: no capture of that name is made here" >&2
        exit 2
        ;;
    esac
done
