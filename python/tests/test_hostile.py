"""What peers and programs can do wrong: bytes of any kind, forks, threads, copies, and objects that come and go."""
import copy
import os
import pickle
import random
import resource
import threading

import pytest
from codec_payload import ArrivalKind, DatagramError, Format, Forwarder, History, PayloadError, Receiver, Sender, Session, sdp
from packets import rtp, vp8, vp8_frame

FORMATS = [Format("VP8", 96, 90_000, nack=True, pli=True, rtx_payload_type=97), Format("opus", 111, 48_000)]


def hostile(seed, count):
    """Random bytes, packets with changed bytes, and packets that are cut."""
    rng = random.Random(seed)
    for number in range(count):
        packet = bytearray(vp8(number, vp8_frame(20), time=3_000 * number))
        kind = rng.randrange(4)
        if kind == 0:
            yield rng.randbytes(rng.randrange(80))
        elif kind == 1:
            for _ in range(rng.randrange(1, 6)):
                packet[rng.randrange(len(packet))] = rng.randrange(256)
            yield bytes(packet)
        elif kind == 2:
            yield bytes(packet[:rng.randrange(len(packet))])
        else:
            yield bytes(packet)


@pytest.mark.parametrize("codec", ["VP8", "VP9", "AV1", "opus", "amr_wb"])
def test_any_bytes(codec):
    receiver = Receiver(codec, 96, 90_000, limit=64)
    session = Session(FORMATS, max_streams=4, probation=1, ssrc=1, cname=b"me")
    history, forwarder = History(64), Forwarder("VP8", 96, ssrc=5)
    forwarder.want(7)
    refused = frames = 0
    for now, datagram in enumerate(hostile(codec, 4_000)):
        try:
            receiver.receive(now, datagram)
            history.keep(datagram)
            forwarder.write(now, datagram)
        except DatagramError:
            refused += 1
        frames += sum(1 for _ in receiver.frames(now))
        assert isinstance(session.receive(now, datagram).kind, ArrivalKind)
        for event in session.events(now):
            frames += event.frame is not None
    assert refused > 500 and frames > 100
    assert receiver.counts().received == session.counts().received == 4_000


def test_any_frame():
    rng = random.Random(1)
    for codec in ("VP8", "VP9", "AV1", "opus", "amr_wb", "tele", "PCMU"):
        sender = Sender(codec, 96, 90_000, ssrc=7, mtu=100)
        for _ in range(300):
            try:
                assert all(len(it) <= 12 + 100 for it in sender.send(0, rng.randbytes(rng.randrange(400))))
            except PayloadError:
                pass


def test_any_description():
    with open(os.path.join(os.path.dirname(__file__), "../../c/tests/sdp/chromium.sdp"), "rb") as it:
        given = it.read()
    rng, read = random.Random(2), 0
    for _ in range(300):
        text = bytearray(given)
        for _ in range(rng.randrange(1, 8)):
            text[rng.randrange(len(text))] = rng.randrange(256)
        try:
            sdp.session(sdp.read(bytes(text[:rng.randrange(len(text))])))
            read += 1
        except ValueError:
            pass
    assert 20 < read < 300


def test_buffers_of_other_types():
    receiver = Receiver("opus", 96, 48_000, ssrc=7, start=0)
    data = bytearray(rtp(1, b"abc"))
    receiver.receive(0, memoryview(data))
    data[12:] = b"xyz"  # the receiver has a copy
    assert receiver.pop(0).data == b"abc"
    for wrong in ("text", None, 5, [1, 2]):
        with pytest.raises(TypeError):
            receiver.receive(0, wrong)
    for now in (-1, 2**64):
        with pytest.raises(OverflowError):
            receiver.receive(now, b"")


def test_no_copies():
    receiver = Receiver("opus", 96, 48_000)
    for attempt in (copy.copy, copy.deepcopy, pickle.dumps):
        with pytest.raises(TypeError):
            attempt(receiver)


def test_fork():
    """After a fork both processes have a receiver of their own, with the same state."""
    receiver = Receiver("opus", 96, 48_000, ssrc=7, start=0)
    receiver.receive(0, rtp(1, b"before"))
    out, into = os.pipe()
    child = os.fork()
    if child == 0:
        try:
            receiver.receive(0, rtp(2, b"child", time=960))
            os.write(into, b",".join(it.data for it in receiver.frames(0)))
        finally:
            os._exit(0)
    os.close(into)
    receiver.receive(0, rtp(2, b"parent", time=960))
    assert [it.data for it in receiver.frames(0)] == [b"before", b"parent"]
    with os.fdopen(out, "rb") as it:
        assert it.read() == b"before,child"
    assert os.waitpid(child, 0)[1] == 0


def test_threads():
    """Calls from several threads take turns: nothing is lost, and nothing comes twice."""
    receiver = Receiver("opus", 96, 48_000, ssrc=7, start=0, limit=8_192)
    found, count = [], 3_000

    def feed(first):
        for number in range(first, count, 3):
            receiver.receive(0, rtp(number, number.to_bytes(2, "big"), time=960 * number))

    def take():
        for _ in range(2_000):
            found.extend(it.data for it in receiver.frames(0))

    threads = [threading.Thread(target=feed, args=(first,)) for first in range(3)] + [threading.Thread(target=take) for _ in range(2)]
    for thread in threads:
        thread.start()
    for thread in threads:
        thread.join()
    receiver.finish()
    found.extend(it.data for it in receiver.frames(0))
    counts = receiver.counts()
    assert counts.received == count and len(found) == len(set(found)) == counts.units
    assert counts.units + counts.late + counts.suspect == count


def test_objects_are_freed():
    def used():
        return resource.getrusage(resource.RUSAGE_SELF).ru_maxrss

    def make(times):
        for _ in range(times):
            receiver = Receiver("opus", 96, 48_000, ssrc=7)
            for number in range(8):
                receiver.receive(0, rtp(number, bytes(1_000)))

    make(300)
    before = used()
    make(3_000)  # 24 MB of payloads, if nothing were freed
    assert used() - before < 8_000
