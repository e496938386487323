//! Passes the datagrams of several streams in turn to a session, or each to a separate receiver:
//!
//!   session WAY KIND STREAMS COUNT
//!
//! - WAY: `bare` is one receiver for each stream, of which the one that got the datagram is popped until it has no unit. `unit`
//!   is the same by `pop_unit`. `once` is one `pop_unit` after each datagram. `poll` is a session that is polled until it has no
//!   event, and `into` is the same by `poll_into`. `batch` is polled so after each 32 datagrams. `deadline` also asks for the next
//!   deadline then. `receive` is a session that is not polled.
//! - KIND: `audio` is Opus, 120 bytes a packet. `video` is VP8, three packets of 1,000 bytes a frame. `requests` is the same
//!   video, and the session requests what it misses; nothing is lost. After two packets of audio of each stream, `reports` are
//!   sender reports of the streams (RFC 3550), `goodbyes` datagrams of 300 BYEs that name nobody, and `strays` are packets of ever new SSRCs, each of which takes the place of the
//!   one before.
//! - COUNT: how many datagrams each stream gets in `Load::counted`, after four others. Only inside it instructions are counted
//!   (`--toggle-collect=session::Load::counted`), so what writes the datagrams does not count.
//!
//! It prints how many datagrams were counted, and the nanoseconds of processor time of a datagram with its writing, in the least of
//! COUNT rounds through all streams.

use codec_payload::session::{Event, FeedbackSettings, Format, Session, SessionSettings};
use codec_payload::stream::{Popped, Receiver, ReceiverSettings};
use codec_payload::{Codec, CodecDepacketizer, CodecSpec, Frequency, PoppedUnit, Ticks};

const VP8: u8 = 96;
const OPUS: u8 = 111;
/// The datagrams of each stream before those that are counted, and those of a batch.
const WARM: u32 = 4;
const BATCH: u32 = 32;

#[repr(C)]
struct Time {
    seconds: i64,
    nanos: i64,
}

unsafe extern "C" {
    fn clock_gettime(clock: i32, time: *mut Time) -> i32;
}

/// The processor time of this process in nanoseconds: CLOCK_PROCESS_CPUTIME_ID of Linux.
fn time_now() -> i64 {
    let mut time = Time {
        seconds: 0,
        nanos: 0,
    };
    // SAFETY: the call writes to `time`, which has the form of `struct timespec` on 64 bits.
    unsafe { clock_gettime(2, &mut time) };
    time.seconds * 1_000_000_000 + time.nanos
}

/// How datagrams are passed on.
#[derive(Clone, Copy, PartialEq)]
enum Way {
    Bare,
    Unit,
    Once,
    Poll,
    Into,
    Batch,
    Deadline,
    Receive,
}

fn way(word: &str) -> Way {
    match word {
        "bare" => Way::Bare,
        "unit" => Way::Unit,
        "once" => Way::Once,
        "poll" => Way::Poll,
        "into" => Way::Into,
        "batch" => Way::Batch,
        "deadline" => Way::Deadline,
        "receive" => Way::Receive,
        other => panic!("{other}: none of the ways"),
    }
}

fn is_video(kind: &str) -> bool {
    kind == "video" || kind == "requests"
}

fn spec(is_video: bool) -> CodecSpec {
    let (codec, clock_rate) = if is_video {
        (Codec::Vp8, Frequency::NINETY_KHZ)
    } else {
        (Codec::Opus, Frequency::FORTY_EIGHT_KHZ)
    };
    CodecSpec {
        codec,
        clock_rate,
        octet_align: false,
    }
}

fn session(kind: &str, streams: u32) -> Session {
    let (is_video, requests) = (is_video(kind), kind == "requests");
    let mut settings = SessionSettings::live();
    settings.max_streams = streams as usize + 1;
    let payload_type = if is_video { VP8 } else { OPUS };
    settings.formats.push({
        let mut format = Format::new(payload_type, spec(is_video));
        format.nack = requests;
        format.pli = requests;
        format
    });
    settings.feedback = requests.then(|| FeedbackSettings::live(1, b"me@host".to_vec()));
    Session::new(settings).expect("settings that can be met")
}

/// A receiver with the settings that a session gives to its streams.
fn receiver(is_video: bool, ssrc: u32) -> Receiver {
    let spec = spec(is_video);
    let session = SessionSettings::live();
    let mut settings = if is_video {
        ReceiverSettings::live_video(VP8, spec.clock_rate)
    } else {
        ReceiverSettings::live_audio(OPUS, spec.clock_rate)
    };
    settings.ssrc = Some(ssrc);
    settings.wait_limits = if is_video {
        session.video
    } else {
        session.audio
    };
    let depacketizer = CodecDepacketizer::from_codec(spec.codec).unwrap();
    Receiver::new(depacketizer, settings).unwrap()
}

/// Writes a datagram of this kind for a stream.
fn write(out: &mut Vec<u8>, kind: &str, ssrc: u32, place: u32) {
    out.clear();
    match kind {
        "goodbyes" if place >= 2 => (0..300).for_each(|_| out.extend([0x80, 203, 0, 0])),
        "reports" if place >= 2 => {
            out.extend([0x80, 200, 0, 6]);
            out.extend(ssrc.to_be_bytes());
            out.extend([7; 20]);
        }
        "strays" if place >= 2 => write_packet(out, false, 1_000 * place + ssrc, place),
        kind => write_packet(out, is_video(kind), ssrc, place),
    }
}

/// Writes the packet of a stream at this place. The first frame of video is a keyframe.
fn write_packet(out: &mut Vec<u8>, is_video: bool, ssrc: u32, place: u32) {
    let (payload_type, time, marker) = if is_video {
        (VP8, place / 3 * 3_000, place % 3 == 2)
    } else {
        (OPUS, place * 960, false)
    };
    out.extend([0x80, payload_type | u8::from(marker) << 7]);
    out.extend((place as u16).to_be_bytes());
    out.extend(time.to_be_bytes());
    out.extend(ssrc.to_be_bytes());
    let len = out.len();
    if is_video && place.is_multiple_of(3) {
        let frame = u8::from(place > 0);
        out.extend([0x10, 0x10 | frame, 0, 0, 0x9D, 0x01, 0x2A, 0x10, 0, 0x10, 0]);
    } else {
        out.push(0);
    }
    out.resize(len + if is_video { 1_000 } else { 120 }, 7);
}

/// What the datagrams go to, and how many units came of them.
struct Load {
    way: Way,
    session: Session,
    receivers: Vec<Receiver>,
    unit: PoppedUnit,
    units: u64,
    /// The datagrams that were not polled for yet.
    waiting: u32,
}

impl Load {
    #[inline(never)]
    fn counted(&mut self, now: Ticks, place: usize, datagram: &[u8]) {
        self.receive(now, place, datagram);
    }

    #[inline(always)]
    fn receive(&mut self, now: Ticks, place: usize, datagram: &[u8]) {
        match self.way {
            Way::Bare | Way::Unit | Way::Once => self.receive_alone(now, place, datagram),
            _ => self.receive_in_session(now, datagram),
        }
    }

    #[inline(always)]
    fn receive_alone(&mut self, now: Ticks, place: usize, datagram: &[u8]) {
        let receiver = &mut self.receivers[place];
        receiver.receive(now, datagram).unwrap();
        if self.way == Way::Bare {
            while let Some(popped) = receiver.pop(now) {
                self.units += u64::from(matches!(popped, Ok(Popped::Unit(_))));
            }
            return;
        }
        while let Some(popped) = receiver.pop_unit(now, &mut self.unit) {
            self.units += u64::from(matches!(popped, Ok(Popped::Unit(()))));
            if self.way == Way::Once {
                break;
            }
        }
    }

    #[inline(always)]
    fn receive_in_session(&mut self, now: Ticks, datagram: &[u8]) {
        self.session.receive(now, datagram).unwrap();
        self.waiting += 1;
        match self.way {
            Way::Receive => return,
            Way::Batch if self.waiting < BATCH => return,
            Way::Into | Way::Batch => {
                while let Some(event) = self.session.poll_into(now, &mut self.unit) {
                    self.units += u64::from(matches!(event, Event::Unit { unit: Ok(()), .. }));
                }
            }
            _ => {
                while let Some(event) = self.session.poll(now) {
                    self.units += u64::from(matches!(event, Event::Unit { unit: Ok(_), .. }));
                }
            }
        }
        self.waiting = 0;
        if self.way == Way::Deadline {
            let deadline = self.session.next_deadline();
            assert!(deadline.is_none_or(|at| now < at));
        }
    }
}

fn main() {
    let words: Vec<String> = std::env::args().collect();
    let [_, word, kind, streams, count] = &words[..] else {
        panic!("session WAY KIND STREAMS COUNT");
    };
    let (streams, count): (u32, u32) = (streams.parse().unwrap(), count.parse().unwrap());
    let mut load = Load {
        way: way(word),
        session: session(kind, streams),
        receivers: (0..streams)
            .map(|ssrc| receiver(is_video(kind), ssrc))
            .collect(),
        unit: PoppedUnit::new(),
        units: 0,
        waiting: 0,
    };
    let (mut datagram, mut least) = (Vec::new(), i64::MAX);
    for place in 0..WARM + count {
        let began = time_now();
        for ssrc in 0..streams {
            write(&mut datagram, kind, ssrc, place);
            let now = Ticks(u64::from(20 * place));
            if place < WARM {
                load.receive(now, ssrc as usize, &datagram);
            } else {
                load.counted(now, ssrc as usize, &datagram);
            }
        }
        if place >= WARM {
            least = least.min((time_now() - began) / i64::from(streams));
        }
    }
    assert!(load.units > 0 || load.way == Way::Receive);
    println!("{} {least}", u64::from(streams) * u64::from(count));
}
