#!/usr/bin/env python3
"""Records from the loopback interface until it is interrupted, as root: what comes has to be written whole.

  live/interface.py [PROGRAM]

The packets of captures/vp8.pcap are sent by UDP, and also behind a filter that lets none through. The last line is
`N passed, N failed`."""

import json
import os
import signal
import socket
import subprocess
import sys
import tempfile
import time

HERE = os.path.dirname(os.path.realpath(__file__))
sys.path.insert(0, f"{HERE}/../tests")
from recorded import all_streams  # noqa: E402
from test_captures import faults_of_file, md5s_in  # noqa: E402

PROGRAM = os.path.abspath(sys.argv[1] if len(sys.argv) > 1 else f"{HERE}/../rtp_record")
PORT = 15104


def recorded(stream, out, port):
    """A run on the interface while the packets are sent: its status and its list."""
    command = [PROGRAM, "--json", "-i", "lo", "-f", f"udp port {port}", "-p", f"{stream.types[0]}=VP8/90000", "-o", out]
    run = subprocess.Popen(command, stdout=subprocess.PIPE)
    time.sleep(1)
    with socket.socket(socket.AF_INET, socket.SOCK_DGRAM) as sender:
        for packet in stream.packets():
            sender.sendto(packet.payload, ("127.0.0.1", PORT))
            time.sleep(0.002)
    time.sleep(0.5)
    run.send_signal(signal.SIGINT)
    told, _ = run.communicate(timeout=10)
    return run.returncode, json.loads(told)


def main():
    stream = next(stream for stream in all_streams() if stream.title == "vp8")
    wanted = stream.wanted(stream.packets(), set(range(len(stream.packets()))))
    faults = []
    with tempfile.TemporaryDirectory() as folder:
        status, told = recorded(stream, f"{folder}/x.webm", PORT)
        if status != 0 or told["streams"][0]["packets"] != len(stream.packets()):
            faults.append(f"live: status {status}, {told}")
        if md5s_in(f"{folder}/x.webm") != wanted:
            faults.append("live: not the frames that were sent")
        faults += [f"live: {fault}" for fault in faults_of_file(f"{folder}/x.webm")]
        status, told = recorded(stream, f"{folder}/y.webm", PORT + 1)
        if status != 0 or told["streams"] or os.path.exists(f"{folder}/y.webm"):
            faults.append(f"a filter that lets none through: {status}, {told}")
    for fault in faults:
        print(fault)
    print(f"{2 if not faults else 0} passed, {len(faults)} failed")
    return 1 if faults else 0


if __name__ == "__main__":
    sys.exit(main())
