#!/usr/bin/env python3
"""Prints what a received packet takes in this library beside other stacks, as Debian has them: libwebrtc, ffmpeg, GStreamer and pion.

  tools/measure/peers.py            instructions of a packet, by callgrind, and the bytes of a stream that got one packet
  tools/measure/peers.py --times    nanoseconds of processor time too, as the least of some runs
  tools/measure/peers.py --losses   what each stack gives out after the same losses and restarts

The programs are tools/bench/receive.c and those of tools/measure/peers, each of which says what it calls; those of `--losses` are
in its folder losses, and losses.py makes their packets. Opus packets have 120 bytes and come in order, while 64 are held; VP8 has
17 packets of 1,200 bytes a frame. A peer that is not installed has no row or column: apt-get install libtgowt-dev libavformat-dev
libgstreamer1.0-dev gstreamer1.0-plugins-good golang-go golang-github-pion-webrtc.v3-dev. Needs make, a C and a C++ compiler, and
valgrind, which cannot count pion. Times depend on the machine and on what else runs on it; instructions do not, nor do the
results of `--losses`, which runs in the time of its packets (GStreamer with real-time priority, as root).
"""
import glob
import os
import re
import subprocess
import sys
import tempfile

import receiving

sys.path.append(f"{os.path.dirname(os.path.realpath(__file__))}/peers")

import losses  # noqa: E402  (the folder is known only now)

HERE = f"{os.path.dirname(os.path.realpath(__file__))}/peers"
FEW, MANY = 2, 12
KINDS = {"opus": "Opus", "vp8": "VP8"}
TGOWT = "/usr/lib/x86_64-linux-gnu/libtg_owt.a"
GSTREAMER = "/usr/include/gstreamer-1.0"


def flags(*packages):
    """What pkg-config says of these packages, None if one is not there."""
    ran = subprocess.run(["pkg-config", "--cflags", "--libs", *packages], capture_output=True, text=True, check=False)
    return ran.stdout.split() if ran.returncode == 0 else None


def c_peer(folder, name, *packages, more=()):
    found = flags(*packages)
    if found is None:
        return None
    program = f"{folder}/{name}"
    subprocess.run(["cc", "-O2", "-std=c11", "-D_GNU_SOURCE", f"{HERE}/{name}.c", "-o", program, *found, *more], check=True)
    return program


def gstreamer(folder, name="gstreamer"):
    """Without the packages that gstreamer-1.0.pc names for static linking: libunwind-dev excludes that of LLVM."""
    if not os.path.exists(f"{GSTREAMER}/gst/check/gstharness.h"):
        return None
    return c_peer(folder, name, "gobject-2.0", more=(f"-I{GSTREAMER}", "-lgstcheck-1.0", "-lgstreamer-1.0"))


def libwebrtc(folder, name="libwebrtc"):
    if not os.path.exists(TGOWT):
        return None
    program = f"{folder}/{name}"
    absl = [f"-l{os.path.basename(it)[3:-3]}" for it in sorted(glob.glob(f"{os.path.dirname(TGOWT)}/libabsl_*.so"))]
    libraries = ["-Wl,--start-group", TGOWT, *absl, "-Wl,--end-group", "-lpthread", "-ldl"]
    subprocess.run(["c++", "-O2", "-std=c++20", "-DWEBRTC_POSIX", "-DWEBRTC_LINUX", "-Wno-deprecated-declarations", "-I/usr/include/tg_owt", f"{HERE}/{name}.cc", "-o", program, *libraries], check=True)
    return program


def own_program(folder, name="own"):
    words = ["cc", "-O2", "-std=c11", "-D_GNU_SOURCE", f"-I{receiving.ROOT}/include", f"{HERE}/{name}.c", f"{receiving.ROOT}/c/out/libcodec_payload.a"]
    subprocess.run([*words, "-o", f"{folder}/{name}"], check=True)
    return f"{folder}/{name}"


def own_stream(folder):
    """The bytes of a stream of this library that got one packet."""
    return printed(own_program(folder))


def pion(folder, source="pion"):
    if not os.path.isdir("/usr/share/gocode/src/github.com/pion/webrtc"):
        return None
    place = f"{folder}/go/src/peer"
    os.makedirs(place)
    for name, text in ("go.mod", "module peer\n"), ("main.go", open(f"{HERE}/{source}.go", encoding="utf-8").read()):
        with open(f"{place}/{name}", "w", encoding="utf-8") as it:
            it.write(text)
    where = {**os.environ, "GO111MODULE": "off", "GOPATH": f"{folder}/go:/usr/share/gocode"}
    subprocess.run(["go", "build", "-o", f"{folder}/pion", "."], cwd=place, env=where, check=True)
    return f"{folder}/pion"


def printed(*words):
    return float(subprocess.run(words, capture_output=True, text=True, check=True, env={**os.environ, "GOMAXPROCS": "1"}).stdout)


def counted(*words):
    """The instructions of a whole program, in all threads."""
    ran = subprocess.run(["valgrind", "--tool=callgrind", "--callgrind-out-file=/dev/null", *words], capture_output=True, text=True, check=True)
    return int(re.search(r"Collected : (\d+)", ran.stderr)[1])


def instructions(program, kind):
    """The instructions of a packet, with the making of it: the difference between many runs and few."""
    return (counted(program, kind, str(MANY)) - counted(program, kind, str(FEW))) / (MANY - FEW) / receiving.ROUNDS


def own(program, kind):
    """The same of this library: `time` makes MANY runs, and `receive` one."""
    return (counted(program, "time", kind, "64") - counted(program, "receive", kind, "64")) / (MANY - 1) / receiving.ROUNDS


def print_losses():
    """A table with a row for each run. The threads of GStreamer need real-time priority, or they are late in the time of the run."""
    subprocess.run(["make", "-s", "-C", receiving.ROOT], check=True, stdout=subprocess.DEVNULL)
    with tempfile.TemporaryDirectory() as folder:
        os.makedirs(f"{folder}/losses")
        own = own_program(folder, "losses/own")
        stacks = {
            "this library": [own],
            "the same, from keyframes": [own, "drop"],
            "libwebrtc": [libwebrtc(folder, "losses/libwebrtc")],
            "GStreamer": ["chrt", "-f", "10", gstreamer(folder, "losses/gstreamer")],
            "pion": [pion(folder, "losses/pion")],
            "ffmpeg": [c_peer(folder, "losses/ffmpeg", "libavformat", "libavcodec", "libavutil")],
        }
        stacks = {name: words for name, words in stacks.items() if words[-1]}
        print("| run | " + " | ".join(stacks) + " |\n" + "|---" * (len(stacks) + 1) + "|")
        for kind, named in KINDS.items():
            for run in losses.RUNS:
                print(f"| {named}, {run} | " + " | ".join(losses.cell(kind, run, words) for words in stacks.values()) + " |", flush=True)
    return 0


def main(words):
    if words == ["--losses"]:
        return print_losses()
    if words not in ([], ["--times"]):
        sys.exit(__doc__.strip())
    with tempfile.TemporaryDirectory() as folder:
        ours = receiving.built(folder, "receive")
        peers = {
            "libwebrtc": libwebrtc(folder),
            "ffmpeg": c_peer(folder, "ffmpeg", "libavformat", "libavcodec", "libavutil"),
            "GStreamer": gstreamer(folder),
            "pion": pion(folder),
        }
        head = [f"{it}, instructions" for it in KINDS.values()] + ["stream that got one packet, bytes"] + ([f"{it}, ns" for it in KINDS.values()] if words else [])
        print("| stack | " + " | ".join(head) + " |\n" + "|---" * (len(head) + 1) + "|")
        row = [f"{own(ours, it):,.0f}" for it in KINDS] + [f"{own_stream(folder):,.0f}"]
        row += [f"{receiving.time_of(ours, 'time', it, 64):,.0f}" for it in KINDS] if words else []
        print("| this library, C | " + " | ".join(row) + " |", flush=True)
        for name, program in peers.items():
            if program:
                row = ["not counted" if name == "pion" else f"{instructions(program, it):,.0f}" for it in KINDS] + [f"{printed(program, 'idle', '0'):,.0f}"]
                row += [f"{printed(program, it, str(MANY)):,.0f}" for it in KINDS] if words else []
                print(f"| {name} | " + " | ".join(row) + " |", flush=True)
    return 0


if __name__ == "__main__":
    sys.exit(main(sys.argv[1:]))
