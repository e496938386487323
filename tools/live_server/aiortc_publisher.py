#!/usr/bin/python3
"""aiortc publishes a picture and a tone by WHIP: aiortc_publisher.py URL SECONDS [silent]. With `silent` it sends no STUN once ICE has
a pair, as some senders do: its media alone shows that it lives. Prints the status of the answer, and in the end the state of ICE."""

import asyncio
import fractions
import sys
import urllib.request

import aioice.ice
from aiortc import MediaStreamTrack, RTCPeerConnection, RTCSessionDescription
from aiortc.mediastreams import AudioStreamTrack, VideoStreamTrack
from av import VideoFrame


class Picture(VideoStreamTrack):
    """A green picture, 10 frames a second."""

    async def recv(self):
        time, base = await self.next_timestamp()
        frame = VideoFrame(160, 120, "yuv420p")
        frame.pts, frame.time_base = time, fractions.Fraction(base)
        return frame


def post(url, offer):
    request = urllib.request.Request(url, offer.encode(), {"Content-Type": "application/sdp"}, method="POST")
    with urllib.request.urlopen(request, timeout=10) as reply:
        print(reply.status, flush=True)
        return reply.read().decode()


async def main(url, seconds, *words):
    if "silent" in words:
        aioice.ice.CONSENT_INTERVAL = 3600
    connection = RTCPeerConnection()
    tracks: list[MediaStreamTrack] = [AudioStreamTrack(), Picture()]
    for track in tracks:
        connection.addTransceiver(track, direction="sendonly")
    await connection.setLocalDescription(await connection.createOffer())
    answer = await asyncio.to_thread(post, url, connection.localDescription.sdp)
    await connection.setRemoteDescription(RTCSessionDescription(answer, "answer"))
    await asyncio.sleep(float(seconds))
    print(connection.connectionState)
    await connection.close()


asyncio.run(main(*sys.argv[1:]))
