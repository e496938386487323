#!/usr/bin/env python3
"""How many viewers a live_server carries: load.py [--before FOLDER] [VIEWERS..], by default 30, 100 and 300.

A publisher of pion (load.go) sends 200 packets of 1,000 bytes a second, and so many viewers come all at once. The table has how many of
them connected, how long the slowest one took, which part of the packets came, and what a packet out took of the processor, and a viewer of
memory. The viewers decode nothing, and take most of the processor themselves. With --before the live_server that is built in this folder is
measured. Needs Debian's golang-go and golang-github-pion-webrtc.v3-dev.
"""

import json
import os
import pathlib
import subprocess
import sys
import tempfile
import time

from servers import HERE, Server

PACKETS, SECONDS = 200, 20  # a second; of a row, in whose second half packets are counted
TICKS = os.sysconf("SC_CLK_TCK")


def built(folder):
    """The program of load.go."""
    place = pathlib.Path(folder, "go/src/load")
    place.mkdir(parents=True)
    (place / "go.mod").write_text("module load\n")
    (place / "main.go").write_text((HERE / "load.go").read_text())
    where = {**os.environ, "GO111MODULE": "off", "GOPATH": f"{folder}/go:/usr/share/gocode"}
    subprocess.run(["go", "build", "-o", f"{folder}/load", "."], cwd=place, env=where, check=True)
    return f"{folder}/load"


def used(process):
    """The seconds of the processor that a process took, and its resident memory in kB."""
    fields = pathlib.Path(f"/proc/{process.pid}/stat").read_text().rsplit(")", 1)[1].split()
    status = pathlib.Path(f"/proc/{process.pid}/status").read_text()
    return (int(fields[11]) + int(fields[12])) / TICKS, int(status.split("VmRSS:")[1].split()[0])


def sent(it):
    """Packets to viewers."""
    return sum(stream["packets"] + stream["resent"] for viewer in it.stats()["viewers"] for stream in viewer["streams"])


def row(program, viewers, folder=None):
    """What a server does with so many viewers."""
    place = pathlib.Path(folder) / "live_server" if folder else "live_server"
    with Server(program=place) as it:
        _, empty = used(it.process)
        run = subprocess.Popen([program, f"http://127.0.0.1:{it.http}", str(viewers), str(PACKETS), str(SECONDS)], stdout=subprocess.PIPE, stderr=subprocess.DEVNULL, text=True)
        time.sleep(2 + SECONDS / 2)
        (before, memory), packets, began = used(it.process), sent(it), time.monotonic()
        time.sleep(SECONDS / 2 - 1.5)
        (after, _), packets, passed = used(it.process), sent(it) - packets, time.monotonic() - began
        found = json.loads(run.communicate()[0].strip().split("\n")[-1])
    micros = 1e6 * (after - before) / max(1, packets)
    return found, (f"| {viewers} | {found['connected']} | {max(found['took'] or [0]):.1f} | {100 * found['part']:.0f} | {packets / passed:.0f} | {micros:.1f} | "
                   f"{100 * (after - before) / passed:.0f} | {(memory - empty) / viewers:.0f} |")


def main():
    words = sys.argv[1:]
    folder = words[1] if words[:1] == ["--before"] else None
    print("| viewers | connected | slowest, s | of the packets, % | packets out a second | of the processor a packet, us | of a core, % | of memory a viewer, kB |")
    print("|---" * 8 + "|")
    with tempfile.TemporaryDirectory() as place:
        program = built(place)
        for viewers in words[2 if folder else 0:] or (30, 100, 300):
            print(row(program, int(viewers), folder)[1], flush=True)
    return 0


if __name__ == "__main__":
    sys.exit(main())
