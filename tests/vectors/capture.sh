#!/bin/sh
# Makes tests/vectors/captured_packets.txt: the first packets that GStreamer, ffmpeg and Chromium send over loopback. Each has the
# fields that tshark reads from it, in the form in which the program payload_datagrams prints the parts of a packet.
#
# Needs gst-launch-1.0 (gstreamer1.0-tools and the plugins base, good and bad), python3-gi and gir1.2-gstreamer-1.0, ffmpeg,
# chromium and tshark, and the right to capture on the loopback interface. The numbers, times and SSRCs of most senders are others
# each time.
set -eu

here=$(cd "$(dirname "$0")" && pwd)
work=$(mktemp -d)
trap 'rm -rf "$work"' EXIT
port=15004
out=$here/captured_packets.txt
: >"$out"

# Turns each of the first lines of tshark's fields into the datagram and its parts, separated by tabs. tshark gives the data of
# an extension element by element, so it is taken out of the datagram by the count of CSRCs and the length in words (RFC 3550,
# section 5.3.1).
cat >"$work/told.py" <<'END'
import itertools
import sys

for line in itertools.islice(sys.stdin, int(sys.argv[1])):
    datagram, kind, marker, number, time, ssrc, csrcs, profile, ids, values, payload, padding = line.rstrip("\n").split("\t")
    told = [f"rtp {kind} {int(marker in ('1', 'True'))} {number} {time} {int(ssrc, 16)}"]
    told += [f"csrc {int(csrc, 16)}" for csrc in csrcs.split(",") if csrc]
    if profile:
        start = 2 * (12 + 4 * int(datagram[1], 16))
        words = int(datagram[start + 4 : start + 8], 16)
        told.append(f"extension {int(profile, 16)} {datagram[start + 8 : start + 8 + 8 * words] or '-'}")
        told += [f"element {id} {value}" for id, value in zip(ids.split(","), values.split(",")) if id]
    told.append(f"payload {payload or '-'} {padding or 0}")
    print("\t".join([datagram, *told]))
END

# The key 5 is held down for 0.3 s.
cat >"$work/events.py" <<'END'
import sys

import gi

gi.require_version("Gst", "1.0")
from gi.repository import GLib, Gst

Gst.init(None)
pipeline = Gst.parse_launch(f"rtpdtmfsrc pt=101 packet-redundancy=3 ! udpsink async=false host=127.0.0.1 port={sys.argv[1]}")


def key(down):
    event = Gst.Structure.from_string(f"dtmf-event,type=(int)1,number=(int)5,volume=(int)10,start=(boolean){down}")[0]
    pipeline.send_event(Gst.Event.new_custom(Gst.EventType.CUSTOM_UPSTREAM, event))


loop = GLib.MainLoop()
pipeline.set_state(Gst.State.PLAYING)
GLib.timeout_add(500, key, "true")
GLib.timeout_add(800, key, "false")
GLib.timeout_add(2000, loop.quit)
loop.run()
pipeline.set_state(Gst.State.NULL)
END

# A camera and a microphone that are not there, to a second end in the same page.
cat >"$work/page.html" <<'END'
<!doctype html><script>
(async () => {
  const from = new RTCPeerConnection(), to = new RTCPeerConnection();
  from.onicecandidate = (event) => event.candidate && to.addIceCandidate(event.candidate);
  to.onicecandidate = (event) => event.candidate && from.addIceCandidate(event.candidate);
  const video = { width: 64, height: 48, frameRate: 10 };
  const stream = await navigator.mediaDevices.getUserMedia({ audio: true, video });
  stream.getTracks().forEach((track) => from.addTrack(track, stream));
  await from.setLocalDescription(await from.createOffer());
  await to.setRemoteDescription(from.localDescription);
  await to.setLocalDescription(await to.createAnswer());
  await from.setRemoteDescription(to.localDescription);
})();
</script>
END

# sends COUNT NAME COMMAND..: COUNT packets of a sender
sends() {
    packets=$1
    name=$2
    shift 2
    : >"$work/capturing"
    tshark -i lo -f "$filter" -a duration:10 -w "$work/capture.pcapng" >>"$work/capturing" 2>&1 &
    capturing=$!
    while kill -0 "$capturing" && ! grep -q "Capture started" "$work/capturing"; do sleep 0.2; done
    # A browser ends by the time that it is given.
    "$@" >"$work/messages" 2>&1 || [ $? -eq 124 ] || cat "$work/messages" >&2
    wait "$capturing" || true
    printf '# %s\n' "$name" >>"$out"
    tshark -r "$work/capture.pcapng" $decode -Y rtp -T fields -E occurrence=a -E aggregator=, -e udp.payload \
        -e rtp.p_type -e rtp.marker -e rtp.seq -e rtp.timestamp -e rtp.ssrc -e rtp.csrc.item -e rtp.ext.profile \
        -e rtp.ext.rfc5285.id -e rtp.ext.rfc5285.data -e rtp.payload -e rtp.padding.count 2>/dev/null |
        python3 "$work/told.py" "$packets" >"$work/told"
    [ "$(wc -l <"$work/told")" -eq "$packets" ] || {
        echo "$name: $(wc -l <"$work/told") packets, and not $packets" >&2
        exit 1
    }
    cat "$work/told" >>"$out"
}

# gstreamer COUNT NAME ELEMENT..: of a sender that is a pipeline
gstreamer() {
    packets=$1
    name=$2
    shift 2
    sends "$packets" "GStreamer, $name" gst-launch-1.0 -q "$@" ! udpsink host=127.0.0.1 port=$port
}

# ffmpeg_sender COUNT NAME QUERY ARGUMENT..: of ffmpeg, with the options of its RTP output as a query
ffmpeg_sender() {
    packets=$1
    name=$2
    query=$3
    shift 3
    sends "$packets" "ffmpeg, $name" ffmpeg -nostdin -f lavfi -i "$@" -f rtp "rtp://127.0.0.1:$port$query"
}

filter="udp port $port"
decode="-d udp.port==$port,rtp"
tone="audiotestsrc num-buffers=60 samplesperbuffer=960 ! audio/x-raw,rate=48000,channels=1"
picture="videotestsrc num-buffers=6 ! video/x-raw,width=32,height=32,framerate=25/1"
level='application/x-rtp,extmap-1=(string)<"","urn:ietf:params:rtp-hdrext:ssrc-audio-level","vad=on">'
numbers="application/x-rtp,extmap-3=(string)http://www.ietf.org/id/draft-holmer-rmcat-transport-wide-cc-extensions-01"

# Each word of $tone, $picture and $decode is an argument.
# shellcheck disable=SC2086
{
    gstreamer 8 "Opus with the level of the audio" $tone ! level audio-level-meta=true ! opusenc bitrate=16000 ! \
        rtpopuspay auto-header-extension=true ! "$level"
    gstreamer 8 "Opus in RED" $tone ! opusenc bitrate=16000 ! rtpopuspay pt=96 ! rtpredenc pt=63 distance=1
    gstreamer 6 "G.711" audiotestsrc num-buffers=20 samplesperbuffer=160 ! audio/x-raw,rate=8000,channels=1 ! mulawenc ! rtppcmupay
    gstreamer 8 "VP8 with transport-wide sequence numbers" $picture ! vp8enc deadline=1 ! \
        rtpvp8pay mtu=200 picture-id-mode=2 auto-header-extension=true ! "$numbers"
    sends 8 "GStreamer, telephone events" /usr/bin/python3 "$work/events.py" "$port"
    ffmpeg_sender 8 "Opus" "" sine=duration=1 -c:a libopus -b:a 16k
    ffmpeg_sender 8 "VP9" "?pkt_size=200" testsrc=duration=1:size=32x32:rate=10 -c:v libvpx-vp9 -strict experimental
    ffmpeg_sender 6 "G.711" "?pkt_size=172" sine=duration=1:sample_rate=8000 -c:a pcm_alaw
    filter=udp decode="--enable-heuristic rtp_udp"
    sends 24 "Chromium, audio and video" timeout 8 chromium --headless=new --no-sandbox --disable-gpu \
        --disable-webrtc-encryption --use-fake-ui-for-media-stream --use-fake-device-for-media-stream \
        --disable-features=WebRtcHideLocalIpsWithMdns --user-data-dir="$work/profile" --allow-file-access-from-files \
        "file://$work/page.html"
}
wc -l "$out"
