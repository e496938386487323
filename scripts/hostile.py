#!/usr/bin/env python3
"""Runs each example and each block of a page that receives datagrams beside a hostile peer, and tests that none ends for it.

  scripts/hostile.py [ARCHIVE]    the archive of the library, by default c/out/libcodec_payload.a
  scripts/hostile.py --rust       the programs in Rust alone

The programs are those of the repository, unchanged. The library under them is made hostile: each call that receives a datagram
first receives what a peer may send under the same SSRC. In Rust that is a copy of rust/ with another `receive`; in C the linker
wraps the calls. Before the first packet of VP8 of an SSRC comes a frame of VP8 that ends in its payload descriptor (RFC 7741,
section 4.2), under the number before; it is refused. In place of the answer to each tenth datagram the program gets the answer to a
malformed one, in turn: RTP of version 0 (RFC 3550, section 5.1), RTCP that is cut short (section 6.4), and, for a stream with RED,
a RED header without its payload (RFC 2198). A media server forwards by the answers: it would lose the packets. So it gets its own
answers, and the session the malformed datagrams behind them. Each program must end with status 0, and its counters must have the
refused frame and the malformed datagrams.

The recorders also write a capture of five frames whose third is refused: four frames are in the file.

Needs cargo; for C a C compiler whose linker has --wrap. The last line says what passed; the status is 0 if all passed.
"""
import os
import re
import shutil
import struct
import subprocess
import sys
import tempfile

import documents

ROOT = os.path.dirname(os.path.dirname(os.path.realpath(__file__)))
ARCHIVE = f"{ROOT}/c/out/libcodec_payload.a"
# Examples that receive nothing.
RECEIVE_NOTHING = {"bandwidth", "longer_way", "sdp"}
# Media servers: they forward what the session took.
FORWARD = {"sfu"}
# Programs that need a special peer, which tools/chromium/chromium_peer.py is.
NEED_A_PEER = {"port_peer"}

RUST = """
/// What a hostile peer sends. Written by scripts/hostile.py.
pub(crate) mod hostile {
    extern crate std;
    use alloc::vec::Vec;
    use std::cell::RefCell;
    use std::collections::HashSet;
    use std::io::Write;
    use std::string::String;

    std::thread_local! {
        static SEEN: RefCell<(HashSet<(u8, u32)>, u64)> = RefCell::default();
    }

    fn is_media(datagram: &[u8]) -> bool {
        datagram.len() > 12 && datagram[0] & 0xdf == 0x80 && !(192..224).contains(&datagram[1])
    }

    /// A refused frame, before the first packet of a stream of VP8.
    pub(crate) fn before(datagram: &[u8], vp8: Option<u8>) -> Option<Vec<u8>> {
        let payload_type = vp8?;
        if !is_media(datagram) || datagram[1] & 127 != payload_type {
            return None;
        }
        let ssrc = u32::from_be_bytes(datagram[8..12].try_into().unwrap());
        if !SEEN.with_borrow_mut(|it| it.0.insert((payload_type, ssrc))) {
            return None;
        }
        note("sent 0 0 0 1".into());
        let number = u16::from_be_bytes([datagram[2], datagram[3]]).wrapping_sub(1);
        let time = u32::from_be_bytes(datagram[4..8].try_into().unwrap()).wrapping_sub(3_000);
        let mut frame = Vec::from([0x80, 0x80 | payload_type]);
        frame.extend(number.to_be_bytes());
        frame.extend(time.to_be_bytes());
        frame.extend(ssrc.to_be_bytes());
        frame.extend([0x90, 0x40, 0x00]);
        Some(frame)
    }

    /// A malformed datagram in place of each tenth one.
    pub(crate) fn instead(datagram: &[u8], red: Option<u8>) -> Option<Vec<u8>> {
        let count = SEEN.with_borrow_mut(|it| {
            it.1 += 1;
            it.1
        });
        if count % 10 != 9 {
            return None;
        }
        match (count / 10 % 3, red) {
            (0, _) => Some(Vec::from([0; 20])),
            (1, _) => Some(Vec::from([0x81, 201, 0, 9, 0, 0, 0, 7])),
            (_, Some(red)) if is_media(datagram) => {
                let mut bytes = Vec::from(&datagram[..12]);
                bytes[1] = red;
                bytes.extend([0x80 | 1, 0]);
                Some(bytes)
            }
            _ => Some(Vec::from(*b"hello")),
        }
    }

    /// The program gets the answers to its own datagrams.
    pub(crate) fn answers() -> bool {
        std::env::var("HOSTILE_ANSWERS").is_ok()
    }

    /// Notes what the counters have at the end.
    pub(crate) fn note(line: String) {
        if let Ok(path) = std::env::var("HOSTILE_LOG") {
            let file = std::fs::OpenOptions::new().create(true).append(true).open(path);
            std::writeln!(file.unwrap(), "{line}").unwrap();
        }
    }
}
"""

RECEIVER = """
impl<B: Depacketizer> Receiver<B> {
    /// The receiver beside a hostile peer.
    pub fn receive(&mut self, now: Ticks, bytes: &[u8]) -> Result<Outcome, ReceiveError> {
        let is_vp8 = matches!(self.packets.buffer.depacketizer, CodecDepacketizer::Vp8(_));
        let vp8 = is_vp8.then_some(self.stream.payload_type);
        if let Some(frame) = crate::hostile::before(bytes, vp8) {
            let _ = self.receive_plain(now, &frame);
        }
        let answer = self.receive_plain(now, bytes);
        let red = self.stream.red.as_ref().map(|it| it.payload_type);
        match crate::hostile::instead(bytes, red) {
            Some(malformed) => self.receive_plain(now, &malformed),
            None => answer,
        }
    }
}

impl<B> Drop for Receiver<B> {
    fn drop(&mut self) {
        let (c, packets) = (self.arrived, self.packets.counters);
        crate::hostile::note(alloc::format!("receiver {} {} {} {}", c.received, c.malformed, c.rtcp, packets.refused));
    }
}
"""

SESSION = """
impl Session {
    /// The session beside a hostile peer.
    pub fn receive(&mut self, now: Ticks, datagram: &[u8]) -> Result<Arrival, AllocError> {
        let payload_type = datagram.get(1).map_or(0, |it| it & 127);
        let vp8 = self.settings.formats.iter().any(|it| {
            it.payload_type == payload_type && it.spec.codec == crate::wire::Codec::Vp8
        });
        if let Some(frame) = crate::hostile::before(datagram, vp8.then_some(payload_type)) {
            self.receive_plain(now, &frame)?;
        }
        let answer = self.receive_plain(now, datagram);
        let Some(malformed) = crate::hostile::instead(datagram, None) else {
            return answer;
        };
        let told = self.receive_plain(now, &malformed);
        if crate::hostile::answers() { answer } else { told }
    }

    /// The same with the time of arrival, without refused frames.
    pub fn receive_at(&mut self, now: Ticks, micros: u64, datagram: &[u8]) -> Result<Arrival, AllocError> {
        let answer = self.receive_at_plain(now, micros, datagram);
        if let Some(malformed) = crate::hostile::instead(datagram, None) {
            self.receive_at_plain(now, micros, &malformed)?;
        }
        answer
    }
}

impl Drop for Session {
    fn drop(&mut self) {
        let c = self.counts();
        crate::hostile::note(alloc::format!("session {} {} {} 0", c.received, c.malformed, c.rtcp));
    }
}
"""


# The calls that the linker wraps, and what replaces them.
WRAPPED = ["cpay_receiver_new", "cpay_receiver_receive", "cpay_receiver_free", "cpay_session_new", "cpay_session_receive",
           "cpay_session_poll", "cpay_session_free"]
C = r"""
#include "codec_payload.h"
#include <stdio.h>
#include <stdlib.h>
#include <string.h>

cpay_status __real_cpay_receiver_new(cpay_receiver *, const cpay_receiver_settings *, const uint8_t *, size_t);
cpay_status __real_cpay_receiver_receive(cpay_receiver *, uint64_t, const uint8_t *, size_t, uint32_t *);
void __real_cpay_receiver_free(cpay_receiver *);
cpay_status __real_cpay_session_new(cpay_session *, const cpay_session_settings *, const cpay_session_format *, size_t,
                                    const uint8_t *, size_t, const cpay_ssrc_pair *, size_t);
cpay_status __real_cpay_session_receive(cpay_session *, uint64_t, const uint8_t *, size_t, cpay_arrival *);
cpay_status __real_cpay_session_poll(cpay_session *, uint64_t, cpay_event *);
void __real_cpay_session_free(cpay_session *);

/* The types of VP8 and RED; 255: none. */
static struct { const void *of; uint8_t vp8, red; } known[64];
static uint32_t seen[64];
static unsigned known_count, seen_count, count;

static void note(const char *kind, uint64_t received, uint64_t malformed, uint64_t rtcp, uint64_t refused) {
    const char *path = getenv("HOSTILE_LOG");
    FILE *file = path ? fopen(path, "a") : NULL;
    if (!file) return;
    fprintf(file, "%s %llu %llu %llu %llu\n", kind, (unsigned long long)received, (unsigned long long)malformed,
            (unsigned long long)rtcp, (unsigned long long)refused);
    fclose(file);
}

static void know(const void *of, uint8_t vp8, uint8_t red) {
    if (known_count == 64) abort();
    known[known_count].of = of;
    known[known_count].vp8 = vp8;
    known[known_count++].red = red;
}

static unsigned place_of(const void *of) {
    for (unsigned i = known_count; i-- > 0;)
        if (known[i].of == of) return i;
    abort();
}

static int is_media(const uint8_t *datagram, size_t size) {
    return size > 12 && (datagram[0] & 0xdf) == 0x80 && !(datagram[1] >= 192 && datagram[1] < 224);
}

/* A refused frame, before the first packet of a stream of VP8. */
static size_t before(const void *of, const uint8_t *datagram, size_t size, uint8_t *frame) {
    uint8_t vp8 = known[place_of(of)].vp8;
    if (!is_media(datagram, size) || (datagram[1] & 127) != vp8) return 0;
    uint32_t ssrc, number = (uint32_t)(datagram[2] << 8 | datagram[3]) - 1;
    memcpy(&ssrc, datagram + 8, 4);
    for (unsigned i = 0; i < seen_count; i++)
        if (seen[i] == ssrc) return 0;
    if (seen_count == 64) abort();
    seen[seen_count++] = ssrc;
    note("sent", 0, 0, 0, 1);
    memcpy(frame, datagram, 12);
    frame[0] = 0x80;
    frame[1] = (uint8_t)(0x80 | vp8);
    frame[2] = (uint8_t)(number >> 8);
    frame[3] = (uint8_t)number;
    frame[5]--; /* another RTP time */
    memcpy(frame + 12, "\x90\x40\0", 3);
    return 15;
}

/* A malformed datagram in place of each tenth one. */
static size_t instead(const void *of, const uint8_t *datagram, size_t size, uint8_t *bytes) {
    uint8_t red = known[place_of(of)].red;
    if (++count % 10 != 9) return 0;
    if (count / 10 % 3 == 0) return memset(bytes, 0, 20), 20;
    if (count / 10 % 3 == 1) return memcpy(bytes, "\x81\xc9\0\x09\0\0\0\x07", 8), 8;
    if (red == 255 || !is_media(datagram, size)) return memcpy(bytes, "hello", 5), 5;
    memcpy(bytes, datagram, 12);
    bytes[1] = red;
    return memcpy(bytes + 12, "\x81", 2), 14;
}

cpay_status __wrap_cpay_receiver_new(cpay_receiver *it, const cpay_receiver_settings *settings, const uint8_t *no_media, size_t n) {
    know(it, settings->spec.codec == CPAY_VP8 ? settings->payload_type : 255, settings->has_red ? settings->red_payload_type : 255);
    return __real_cpay_receiver_new(it, settings, no_media, n);
}

cpay_status __wrap_cpay_receiver_receive(cpay_receiver *it, uint64_t now, const uint8_t *datagram, size_t size, uint32_t *outcome) {
    uint8_t bytes[32];
    uint32_t ignored = 0;
    size_t more = before(it, datagram, size, bytes);
    if (more) (void)!__real_cpay_receiver_receive(it, now, bytes, more, &ignored);
    cpay_status status = __real_cpay_receiver_receive(it, now, datagram, size, outcome);
    more = instead(it, datagram, size, bytes);
    return more ? __real_cpay_receiver_receive(it, now, bytes, more, outcome) : status;
}

void __wrap_cpay_receiver_free(cpay_receiver *it) {
    cpay_receiver_counts_info c;
    if (cpay_receiver_counts(it, &c) == CPAY_OK) note("receiver", c.received, c.malformed, c.rtcp, c.refused);
    __real_cpay_receiver_free(it);
}

cpay_status __wrap_cpay_session_new(cpay_session *it, const cpay_session_settings *settings, const cpay_session_format *formats,
                                    size_t count_of_formats, const uint8_t *no_media, size_t n, const cpay_ssrc_pair *pairs, size_t m) {
    uint8_t vp8 = 255;
    for (size_t i = 0; i < count_of_formats; i++)
        if (formats[i].spec.codec == CPAY_VP8) vp8 = formats[i].payload_type;
    know(it, vp8, 255);
    return __real_cpay_session_new(it, settings, formats, count_of_formats, no_media, n, pairs, m);
}

cpay_status __wrap_cpay_session_receive(cpay_session *it, uint64_t now, const uint8_t *datagram, size_t size, cpay_arrival *arrival) {
    uint8_t bytes[32];
    cpay_arrival ignored;
    size_t more = before(it, datagram, size, bytes);
    if (more) (void)!__real_cpay_session_receive(it, now, bytes, more, &ignored);
    cpay_status status = __real_cpay_session_receive(it, now, datagram, size, arrival);
    more = instead(it, datagram, size, bytes);
    if (!more) return status;
    if (!getenv("HOSTILE_ANSWERS")) return __real_cpay_session_receive(it, now, bytes, more, arrival);
    /* The program gets the answers to its own datagrams. */
    (void)!__real_cpay_session_receive(it, now, bytes, more, &ignored);
    return status;
}

cpay_status __wrap_cpay_session_poll(cpay_session *it, uint64_t now, cpay_event *event) {
    cpay_status status = __real_cpay_session_poll(it, now, event);
    if (status == CPAY_OK && event->kind == CPAY_EVENT_FAULT) note("receiver", 0, 0, 0, 1);
    return status;
}

void __wrap_cpay_session_free(cpay_session *it) {
    cpay_session_counts_info c;
    if (cpay_session_counts(it, &c) == CPAY_OK) note("session", c.received, c.malformed, c.rtcp, 0);
    __real_cpay_session_free(it);
}
"""


def changed(path, pairs, more=""):
    with open(path, encoding="utf-8") as it:
        text = it.read()
    for old, new in pairs:
        if old not in text:
            raise SystemExit(f"hostile: {path} lacks {old!r}")
        text = text.replace(old, new, 1)
    with open(path, "w", encoding="utf-8") as it:
        it.write(text + more)


def hostile_crate(folder):
    """A copy of rust/ whose receivers and sessions have a hostile peer."""
    crate = f"{folder}/rust"
    shutil.copytree(f"{ROOT}/rust", crate, ignore=shutil.ignore_patterns("target", "tests", "Cargo.lock"))
    changed(f"{crate}/src/lib.rs", [], RUST)
    changed(f"{crate}/src/stream/receiver.rs", [("pub fn receive(", "pub(crate) fn receive_plain(")], RECEIVER)
    changed(f"{crate}/src/jitter/jitter_buffer.rs", [("    counters: PacketCounters,\n", "    pub(crate) counters: PacketCounters,\n"),
                                                            ("    buffer: DepacketizingBuffer<B>,\n",
                                                             "    pub(crate) buffer: DepacketizingBuffer<B>,\n")])
    changed(f"{crate}/src/buffer.rs", [("    depacketizer: CodecDepacketizer<B>,\n", "    pub(crate) depacketizer: CodecDepacketizer<B>,\n")])
    changed(f"{crate}/src/session/sessions.rs", [("pub fn receive(", "pub(crate) fn receive_plain("),
                                                     ("pub fn receive_at(", "pub(crate) fn receive_at_plain(")], SESSION)
    return crate


def faults_of(name, done, log):
    """What is wrong with a program that has run: it ended early, or its counters lack what the peer sent."""
    if done.returncode:
        yield f"{name}: status {done.returncode}: {done.stdout[-500:]}{done.stderr[-500:]}"
        return
    kinds = {"receiver": [0, 0, 0, 0], "session": [0, 0, 0, 0], "sent": [0, 0, 0, 0]}
    if os.path.exists(log):
        with open(log, encoding="ascii") as lines:
            for line in lines:
                kind, *numbers = line.split()
                kinds[kind] = [one + int(more) for one, more in zip(kinds[kind], numbers)]
    received, malformed, rtcp, refused = (one + more for one, more in zip(kinds["receiver"], kinds["session"]))
    if received == 0:
        yield f"{name}: it received nothing"
    if received >= 40 and (malformed == 0 or malformed + rtcp < received // 30):
        yield f"{name}: {malformed} malformed datagrams and {rtcp} of RTCP of {received} are counted"
    if refused < kinds["sent"][3]:
        yield f"{name}: {refused} of {kinds['sent'][3]} refused frames are counted"


def ran(name, words, log):
    if os.path.exists(log):
        os.remove(log)
    answers = {"HOSTILE_ANSWERS": "1"} if name in FORWARD else {}
    return subprocess.run(words, capture_output=True, text=True, check=False, env={**os.environ, "HOSTILE_LOG": log, **answers})


def rust_examples(crate, folder):
    target, log = f"{folder}/target", f"{folder}/log"
    subprocess.run(["cargo", "build", "--offline", "--quiet", "--examples"], cwd=crate, check=True,
                   env={**os.environ, "CARGO_TARGET_DIR": target, "RUSTFLAGS": "-Awarnings"})
    for name in sorted(it[:-3] for it in os.listdir(f"{crate}/examples")):
        if name in RECEIVE_NOTHING | NEED_A_PEER:
            continue
        yield from faults_of(f"rust/examples/{name}.rs", ran(name, [f"{target}/debug/examples/{name}"], log), log)


def receives(block):
    """Whether a block receives datagrams. A receiver of FEC alone is beside what the peers send to."""
    if "FecReceiver" in block.text and "Session" not in block.text:
        return False
    # The blocks of a port with FEC lose their first packet, and the hostile frame takes the number of that packet.
    if "FecPort::new" in block.text or "cpay_fec_port_new" in block.text:
        return False
    return block.language in ("rust", "c") and re.search(r"\b(receive|receive_any|cpay_\w+_receive)\(", block.text)


def page_blocks():
    for page in documents.files(".md"):
        yield from (it for it in documents.blocks_and_rest(page)[0] if receives(it))


def rust_blocks(crate, folder):
    log = f"{folder}/log"
    for block in page_blocks():
        if block.language != "rust":
            continue
        if os.path.exists(log):
            os.remove(log)
        said = documents.checked_rust(block, f"{folder}/page", crate, {**os.environ, "HOSTILE_LOG": log})
        if said:
            yield f"{block}: {said[-500:]}"
        elif not os.path.exists(log):
            yield f"{block}: it received nothing"


def capture_of_five():
    """A capture of five frames of VP8, of one packet each, whose third is refused: a keyframe of 320 x 240, and delta frames."""
    key = bytes([0x10, 0x0c, 0x00, 0x9d, 0x01, 0x2a, 0x40, 0x01, 0xf0, 0x00])
    packets = []
    for number in range(5):
        frame = key + bytes(110) if number == 0 else bytes([0x11, 0x0c, 0x00]) + bytes(110)
        payload = bytes([0x90, 0x40, 0x00]) if number == 2 else bytes([0x10]) + frame
        rtp = struct.pack(">BBHII", 0x80, 0xe0, 100 + number, 3000 * number, 7) + payload
        udp = struct.pack(">HHHH", 5000, 15004, 8 + len(rtp), 0) + rtp
        ip = struct.pack(">BBHHHBBH4s4s", 0x45, 0, 20 + len(udp), number, 0, 64, 17, 0, bytes(4), bytes(4)) + udp
        packets.append(bytes(12) + b"\x08\x00" + ip)
    out = struct.pack("<IHHiIII", 0xa1b2c3d4, 2, 4, 0, 0, 65535, 1)
    for place, packet in enumerate(packets):
        out += struct.pack("<IIII", 0, 33_000 * place, len(packet), len(packet)) + packet
    return out


def frames_in(path):
    with open(path, "rb") as file:
        data = file.read()
    count, at = 0, 32
    while at < len(data):
        at += 12 + struct.unpack_from("<I", data, at)[0]
        count += 1
    return count


def recorder(language, words, folder):
    """A recorder writes four of five frames whose third is refused."""
    given, path = f"{folder}/five.pcap", f"{folder}/five.ivf"
    with open(given, "wb") as file:
        file.write(capture_of_five())
    done = subprocess.run([*words, given, "15004", "96", path], capture_output=True, text=True, check=False)
    if done.returncode or frames_in(path) != 4:
        yield f"the recorder in {language}: status {done.returncode}, and 4 of 5 frames are expected: {done.stdout}{done.stderr}"


def rust_programs(folder):
    crate = hostile_crate(folder)
    yield from rust_examples(crate, folder)
    yield from rust_blocks(crate, folder)
    subprocess.run(["cargo", "build", "--offline", "--quiet", "--example", "recorder"], cwd=f"{ROOT}/rust", check=True,
                   env={**os.environ, "CARGO_TARGET_DIR": f"{folder}/plain"})
    yield from recorder("Rust", [f"{folder}/plain/debug/examples/recorder"], folder)


def compiled(source, program, folder, archive):
    """Builds a program in C whose calls are wrapped. Returns the compiler's messages, if it fails."""
    with open(f"{folder}/hostile.c", "w", encoding="ascii") as it:
        it.write(C)
    wraps = [f"-Wl,--wrap={name}" for name in WRAPPED]
    return documents.ran([os.environ.get("CC", "cc"), "-std=gnu99", "-O1", "-g", f"-I{ROOT}/include", source, f"{folder}/hostile.c",
                          *wraps, archive, "-o", program])


def c_programs(folder, archive):
    log, program = f"{folder}/log", f"{folder}/program"
    sources = [f"examples/{it}" for it in sorted(os.listdir(f"{ROOT}/examples")) if it.endswith(".c")]
    for source in sources:
        # The recorder needs a capture: it follows below.
        name = os.path.basename(source)[:-2]
        if name in {*RECEIVE_NOTHING, "recorder"}:
            continue
        said = compiled(f"{ROOT}/{source}", program, folder, archive)
        if said:
            yield f"{source}: {said[-500:]}"
        else:
            yield from faults_of(source, ran(name, [program], log), log)
    for block in page_blocks():
        if block.language == "c" and "int main(" in block.text:
            with open(f"{folder}/block.c", "w", encoding="utf-8") as it:
                it.write(block.text)
            said = compiled(f"{folder}/block.c", program, folder, archive)
            if said:
                yield f"{block}: {said[-500:]}"
            else:
                yield from faults_of(str(block), ran("", [program], log), log)
    said = documents.ran([os.environ.get("CC", "cc"), "-std=gnu99", f"-I{ROOT}/include", f"{ROOT}/examples/recorder.c", archive,
                          "-o", program])
    if said:
        yield f"examples/recorder.c: {said[-500:]}"
    else:
        yield from recorder("C", [program], folder)


def main(words):
    rust_alone = "--rust" in words
    words = [it for it in words if it != "--rust"]
    archive = os.path.realpath(words[0]) if words else ARCHIVE
    if not words and not rust_alone:
        subprocess.run(["make", "-s", "-C", ROOT], check=True, stdout=subprocess.DEVNULL)
    with tempfile.TemporaryDirectory() as folder:
        wrong = list(rust_programs(folder))
        if not rust_alone:
            wrong += c_programs(folder, archive)
    tested = "the examples and the blocks of pages that receive, in Rust" + ("" if rust_alone else " and C")
    print("\n".join([*wrong, f"hostile: {tested}: {f'{len(wrong)} faults' if wrong else 'all passed'}"]))
    return 1 if wrong else 0


if __name__ == "__main__":
    sys.exit(main(sys.argv[1:]))
