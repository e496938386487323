#!/usr/bin/env python3
"""Receives VP8 by RTP over UDP with asyncio: frames in order, requests for lost packets and keyframes, receiver reports.

   asyncio_receiver.py PORT    prints a line for each frame; ffmpeg -re -i FILE -c:v libvpx -f rtp rtp://127.0.0.1:PORT sends
"""
import asyncio
import sys

from codec_payload import EventKind, Format, Session, milliseconds

SEND = {EventKind.FEEDBACK, EventKind.REPORT}


class Receiving(asyncio.DatagramProtocol):
    def __init__(self, on_frame):
        self.on_frame, self.peer, self.timer = on_frame, None, None
        self.session = Session([Format("VP8", 96, 90_000, nack=True, pli=True)], purpose="live_with_nack", ssrc=1, cname=b"me")

    def connection_made(self, transport):
        self.transport = transport

    def datagram_received(self, data, peer):
        self.peer = peer
        self.session.receive(milliseconds(), data)  # no datagram raises an exception
        self.poll()

    def poll(self):
        for event in self.session.events(milliseconds()):
            if event.kind is EventKind.UNIT:
                self.on_frame(event.frame)
            elif event.kind in SEND:
                self.transport.sendto(event.rtcp, self.peer)
        if self.timer is not None:
            self.timer.cancel()
        deadline = self.session.next_deadline()
        if deadline is not None:  # something may be due then, although no datagram arrives
            self.timer = asyncio.get_running_loop().call_later(max(deadline - milliseconds(), 1) / 1_000, self.poll)


async def main(port):
    loop = asyncio.get_running_loop()
    print_frame = lambda it: print(f"{len(it.data)} bytes, keyframe: {it.keyframe}, decodable: {it.decodable}")  # noqa: E731
    await loop.create_datagram_endpoint(lambda: Receiving(print_frame), local_addr=("127.0.0.1", port))
    await asyncio.Event().wait()


if __name__ == "__main__":
    asyncio.run(main(int(sys.argv[1])))
