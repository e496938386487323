#!/bin/sh
# Makes frames by encoders in the given folder: the files; each frame as a line of hexadecimal digits beside its file; and the
# facts that other tools read from them, in traces.txt and opus.txt. The frames in the tests of codec_payload_media come from
# these files, and tests/media/media_peers.py reads them.
#
#     tests/media/media_frames.sh FOLDER
set -eu
out=${1:?a folder}
mkdir -p "$out"
cd "$out"
quiet="-hide_banner -loglevel error -y"

# picture SIZE PIXELS FRAMES NAME: a test picture as Y4M
picture() {
  ffmpeg $quiet -f lavfi -i "testsrc=size=$1:rate=10" -pix_fmt "$2" -frames:v "$3" -strict -1 "$4.y4m"
}

# video NAME SOURCE CODEC OPTIONS..: from the source's Y4M to IVF
video() {
  name=$1 source=$2 codec=$3
  shift 3
  ffmpeg $quiet -i "$source.y4m" -c:v "$codec" -strict experimental "$@" "$name.ivf"
}

picture 64x48 yuv420p 12 small
picture 175x143 yuv420p 3 odd
picture 64x64 yuv444p 2 full_color
picture 64x64 yuv422p10le 2 ten_bit
picture 64x64 yuv420p10le 2 ten_bit_420

video vp8 small libvpx -b:v 50k
video vp8_odd odd libvpx -b:v 50k
video vp9 small libvpx-vp9 -b:v 50k -auto-alt-ref 1 -lag-in-frames 10 -g 12
video vp9_odd odd libvpx-vp9 -b:v 50k
video vp9_444 full_color libvpx-vp9 -b:v 50k
video vp9_422_10 ten_bit libvpx-vp9 -b:v 50k
video vp9_420_10 ten_bit_420 libvpx-vp9 -b:v 50k
video av1 small libaom-av1 -b:v 50k -cpu-used 8
video av1_odd odd libaom-av1 -b:v 50k -cpu-used 8
video av1_444 full_color libaom-av1 -b:v 50k -cpu-used 8
video av1_10 ten_bit_420 libaom-av1 -b:v 50k -cpu-used 8
video av1_still small libaom-av1 -frames:v 1 -still-picture 1 -b:v 50k -cpu-used 8

# hidden frames, in superframes
ffmpeg $quiet -f lavfi -i "testsrc2=size=176x144:rate=30" -frames:v 40 -pix_fmt yuv420p hidden.y4m
ffmpeg $quiet -i hidden.y4m -c:v libvpx-vp9 -b:v 40k -pass 1 -an -f null /dev/null
video vp9_hidden hidden libvpx-vp9 -b:v 40k -pass 2 -auto-alt-ref 1 -lag-in-frames 25

for duration in 2.5 5 10 20 40 60 80 100 120; do
  ffmpeg $quiet -f lavfi -i "sine=frequency=440:duration=0.3" -ac 1 -c:a libopus -b:a 24k -frame_duration "$duration" "opus_$duration.ogg" || true
done
ffmpeg $quiet -f lavfi -i "sine=frequency=440:duration=0.3" -ac 2 -c:a libopus -b:a 64k -application audio opus_stereo.ogg
ffmpeg $quiet -f lavfi -i "sine=frequency=440:duration=0.3" -ac 1 -c:a libopus -b:a 12k -application voip opus_voice.ogg

for file in vp8*.ivf vp9*.ivf av1*.ivf; do
  echo "== $file"
  ffprobe -hide_banner -loglevel error -show_entries stream=codec_name,profile,level,width,height,pix_fmt,color_range:packet=size,flags -of compact "$file"
  ffmpeg -hide_banner -loglevel info -i "$file" -c copy -bsf:v trace_headers -f null - 2>&1 | sed -n 's/^\[trace_headers[^]]*\] //p' || true
done > traces.txt
for file in opus*.ogg; do
  echo "== $file"
  ffprobe -hide_banner -loglevel error -show_entries packet=size,duration,duration_time -of compact "$file"
done > opus.txt

# each frame of an IVF file as hexadecimal, one a line
for file in *.ivf; do
  python3 - "$file" <<'P' > "${file%.ivf}.hex"
import struct, sys
data = open(sys.argv[1], "rb").read()
place = struct.unpack_from("<H", data, 6)[0]
while place < len(data):
    size = struct.unpack_from("<I", data, place)[0]
    print(data[place + 12 : place + 12 + size].hex())
    place += 12 + size
P
done
# each packet of an Ogg file as hexadecimal, one a line
for file in *.ogg; do
  python3 - "$file" <<'P' > "${file%.ogg}.hex"
import sys
data = open(sys.argv[1], "rb").read()
place, packet = 0, b""
while place < len(data):
    count = data[place + 26]
    sizes = data[place + 27 : place + 27 + count]
    place += 27 + count
    for size in sizes:
        packet += data[place : place + size]
        place += size
        if size < 255:
            print(packet.hex())
            packet = b""
P
done
