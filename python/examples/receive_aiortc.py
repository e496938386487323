#!/usr/bin/env python3
"""Receives VP8 that aiortc encodes and packetizes, over losses, and decodes it with aiortc.

   receive_aiortc.py [LOSS]    LOSS is the share of packets that are lost, 0 by default

aiortc sends each lost packet again if the receiver requests it. Needs aiortc (Debian: python3-aiortc).
"""
import random
import sys
from fractions import Fraction

import av
from aiortc.codecs.vpx import Vp8Decoder, Vp8Encoder
from aiortc.jitterbuffer import JitterFrame
from aiortc.rtp import RtcpRtpfbPacket, RtpPacket, RtcpPacket
from codec_payload import EventKind, Format, Session

PICTURES, SSRC = 90, 7


def sent_packets(number):
    """aiortc's packets of a picture in one grey, by its encoder."""
    picture = av.VideoFrame(320, 240, "yuv420p")
    for plane, value in zip(picture.planes, (number * 2 % 256, 128, 128)):
        plane.update(bytes([value]) * plane.buffer_size)
    picture.pts, picture.time_base = 3_000 * number, Fraction(1, 90_000)
    payloads, time = sent_packets.encoder.encode(picture, force_keyframe=number == 0)
    for place, payload in enumerate(payloads):
        packet = RtpPacket(payload_type=96, marker=place == len(payloads) - 1, sequence_number=sent_packets.number, timestamp=time,
                           ssrc=SSRC)
        packet.payload = payload
        sent_packets.number = (sent_packets.number + 1) % 65_536
        yield packet.sequence_number, packet.serialize()


sent_packets.encoder, sent_packets.number = Vp8Encoder(), 65_500


def requested(rtcp):
    """The numbers that a compound packet of RTCP requests, as aiortc reads it."""
    return [number for it in RtcpPacket.parse(rtcp) if isinstance(it, RtcpRtpfbPacket) for number in it.lost]


def run(loss):
    """How many pictures were decoded, and how many packets were lost and sent again."""
    session = Session([Format("VP8", 96, 90_000, nack=True, pli=True)], purpose="live_with_nack", ssrc=1, cname=b"me", probation=1)
    rng, history, decoder = random.Random(1), {}, Vp8Decoder()
    pictures, lost, again = [], 0, 0
    for now in range(0, PICTURES * 33 + 2_000, 3):
        if now % 33 == 0 and now < PICTURES * 33:
            for number, datagram in sent_packets(now // 33):
                history[number] = datagram
                if rng.random() < loss:
                    lost += 1
                else:
                    session.receive(now, datagram)
        for event in session.events(now):
            if event.kind is EventKind.UNIT:
                pictures += decoder.decode(JitterFrame(data=event.frame.data, timestamp=event.frame.rtp_time % 2**32))
            elif event.kind is EventKind.FEEDBACK:
                for number in requested(event.rtcp):
                    again += 1
                    session.receive(now, history[number])
    return pictures, lost, again


if __name__ == "__main__":
    pictures, lost, again = run(float(sys.argv[1]) if len(sys.argv) > 1 else 0)
    print(f"{len(pictures)} of {PICTURES} pictures decoded, {lost} packets lost, {again} sent again")
