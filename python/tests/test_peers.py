"""Other implementations: captures of Chromium, and aiortc over losses. Then the example for asyncio, over UDP on this machine."""
import asyncio
import hashlib
import importlib.util
import os
import socket

import pytest
from codec_payload import Sender
from packets import vp8_frame

HERE = os.path.dirname(__file__)
CAPTURES = os.path.join(HERE, "../../tools/rtp_record/captures")


def example(name):
    spec = importlib.util.spec_from_file_location(name, os.path.join(HERE, "../examples", f"{name}.py"))
    module = importlib.util.module_from_spec(spec)
    spec.loader.exec_module(module)
    return module


@pytest.mark.parametrize("name, payload_type", [("chromium-vp8", 96), ("chromium-vp9", 98)])
def test_captures_of_chromium(name, payload_type):
    """The frames have the sums that ffmpeg gave for the frames of Chromium's encoder (tools/rtp_record/captures)."""
    with open(f"{CAPTURES}/{name}.video.md5", encoding="utf-8") as it:
        wanted = [line.split(",")[5].strip() for line in it if not line.startswith("#")]
    found = example("receive_capture").frames(f"{CAPTURES}/{name}.pcap", f"{CAPTURES}/{name}.sdp")
    (units,) = [units for (kind, _), units in found.items() if kind == payload_type]
    assert [hashlib.md5(it.data).hexdigest() for it in units] == wanted
    assert all(it.decodable for it in units) and units[0].keyframe


@pytest.mark.parametrize("loss", [0, 0.05])
def test_aiortc(loss):
    pytest.importorskip("aiortc")
    pictures, lost, again = example("receive_aiortc").run(loss)
    assert len(pictures) == 90 and again == lost and (lost > 3) == (loss > 0)
    # The grey of each picture, as it was sent; a lossy codec keeps the grey of a plane to a few steps.
    assert all(abs(bytes(it.planes[0])[0] - number * 2 % 256) <= 4 for number, it in enumerate(pictures))


def test_asyncio():
    module, found = example("asyncio_receiver"), []
    frames = [vp8_frame(2_500, keyframe=number % 10 == 0) for number in range(20)]

    async def run():
        loop = asyncio.get_running_loop()
        transport, receiving = await loop.create_datagram_endpoint(lambda: module.Receiving(found.append), local_addr=("127.0.0.1", 0))
        sender = Sender("VP8", 96, 90_000, ssrc=7)
        with socket.socket(socket.AF_INET, socket.SOCK_DGRAM) as out:
            out.connect(transport.get_extra_info("sockname"))
            out.settimeout(5)
            for place, frame in enumerate(frames):
                datagrams = sender.send(3_000 * place, frame)
                for number, datagram in enumerate(datagrams):
                    if (place, number) != (7, 1):
                        out.send(datagram)
                    else:
                        lost = datagram
                await asyncio.sleep(0.01)
            # The lost packet is requested (RFC 4585, section 6.2.1: type 205, form 1), and sent again.
            rtcp = b""
            while bytes([0x81, 205]) not in rtcp:
                rtcp = await loop.run_in_executor(None, out.recv, 2_000)
            out.send(lost)
            while len(found) < len(frames):
                await asyncio.sleep(0.01)
        transport.close()

    asyncio.run(asyncio.wait_for(run(), 20))
    assert [it.data for it in found] == frames and all(it.contiguous and it.decodable for it in found)
