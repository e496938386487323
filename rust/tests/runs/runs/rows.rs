//! Runs of built-in codecs, and their results.

use codec_payload::codec::Vp9PacketizerMode;
use codec_payload::schedule::Step;
use codec_payload::wire::Codec;

/// The codec-specific data of a unit.
#[derive(Clone, Copy, Debug, PartialEq, Eq)]
pub enum Told {
    Nothing,
    /// The extended picture id.
    PictureId(u64),
    IsKeyframe(bool),
}

/// A unit that is released.
pub struct Unit<'a> {
    pub bytes: &'a [u8],
    /// The numbers of its first packet and its last.
    pub numbers: (u64, u64),
    pub contiguous: bool,
    pub told: Told,
}

/// What a pop must answer.
pub enum Popped<'a> {
    Unit(Unit<'a>),
    /// A fault of that number.
    Fault(u8),
    Nothing,
}

/// What sends the samples of a run.
pub enum Sender {
    /// The packetizer of a codec by its default.
    OfCodec(Codec),
    /// That of VP8 with picture ids, of which this is the first.
    Vp8WithIds(u16),
    /// That of VP9 in this mode, with this first picture id.
    Vp9(Vp9PacketizerMode, u16),
}

/// A run with a buffer of a codec that holds nothing in the end.
pub struct RunRow {
    pub name: &'static str,
    pub sender: Sender,
    pub codec: Codec,
    pub frames: &'static [&'static [u8]],
    pub steps: &'static [Step],
    /// How many packets each `Send` gives.
    pub counts: &'static [usize],
    /// What all packets hold.
    pub payloads: &'static [&'static [u8]],
    pub pops: &'static [Popped<'static>],
}

const THREE_BYTES: [u8; 3] = [0x90, 0x90, 0x90];

/// They are sent at an MTU of 2, and come in reverse.
const CUT_IN_TWO: [Step; 6] = [
    Step::Send { sample: 0, mtu: 2 },
    Step::Push(1),
    Step::Push(0),
    Step::Pop,
    Step::Pop,
    Step::Pop,
];

const TWO_AND_ONE: [&[u8]; 2] = [&[0x90, 0x90], &[0x90]];

const TWO_UNITS: [Popped<'static>; 3] = [
    Popped::Unit(Unit {
        bytes: &[0x90, 0x90],
        numbers: (10, 10),
        contiguous: true,
        told: Told::Nothing,
    }),
    Popped::Unit(Unit {
        bytes: &[0x90],
        numbers: (11, 11),
        contiguous: true,
        told: Told::Nothing,
    }),
    Popped::Nothing,
];

/// A temporal delimiter, a sequence header of one byte and a frame of two.
const TWO_OBUS: [u8; 9] = [0x12, 0x00, 0x0a, 0x01, 0xaa, 0x32, 0x02, 0xbb, 0xcc];

/// The same without the temporal delimiter.
const TWO_OBUS_UNIT: [u8; 7] = [0x0a, 0x01, 0xaa, 0x32, 0x02, 0xbb, 0xcc];

/// That at an MTU of 2.
const PACKETS_OF_TWO: [&[u8]; 5] = [
    &[0x58, 0x08],
    &[0x90, 0xaa],
    &[0x50, 0x30],
    &[0xd0, 0xbb],
    &[0x90, 0xcc],
];

pub const RUNS: [RunRow; 19] = [
    RunRow {
        name: "g7xx-as-opus, PCMU",
        sender: Sender::OfCodec(Codec::PCMU),
        codec: Codec::PCMU,
        frames: &[&THREE_BYTES],
        steps: &CUT_IN_TWO,
        counts: &[2],
        payloads: &TWO_AND_ONE,
        pops: &TWO_UNITS,
    },
    RunRow {
        name: "g7xx-as-opus, PCMA",
        sender: Sender::OfCodec(Codec::PCMA),
        codec: Codec::PCMA,
        frames: &[&THREE_BYTES],
        steps: &CUT_IN_TWO,
        counts: &[2],
        payloads: &TWO_AND_ONE,
        pops: &TWO_UNITS,
    },
    RunRow {
        name: "g7xx-as-opus, G722",
        sender: Sender::OfCodec(Codec::G722),
        codec: Codec::G722,
        frames: &[&THREE_BYTES],
        steps: &CUT_IN_TWO,
        counts: &[2],
        payloads: &TWO_AND_ONE,
        pops: &TWO_UNITS,
    },
    RunRow {
        name: "g7xx-as-opus, Opus",
        sender: Sender::OfCodec(Codec::Opus),
        codec: Codec::Opus,
        frames: &[&THREE_BYTES],
        steps: &CUT_IN_TWO,
        counts: &[2],
        payloads: &TWO_AND_ONE,
        pops: &TWO_UNITS,
    },
    RunRow {
        name: "g7xx-as-opus, PCMU at an MTU of 0",
        sender: Sender::OfCodec(Codec::PCMU),
        codec: Codec::PCMU,
        frames: &[&THREE_BYTES],
        steps: &[Step::Send { sample: 0, mtu: 0 }],
        counts: &[0],
        payloads: &[],
        pops: &[],
    },
    RunRow {
        name: "g7xx-as-opus, PCMA at an MTU of 0",
        sender: Sender::OfCodec(Codec::PCMA),
        codec: Codec::PCMA,
        frames: &[&THREE_BYTES],
        steps: &[Step::Send { sample: 0, mtu: 0 }],
        counts: &[0],
        payloads: &[],
        pops: &[],
    },
    RunRow {
        name: "g7xx-as-opus, G722 at an MTU of 0",
        sender: Sender::OfCodec(Codec::G722),
        codec: Codec::G722,
        frames: &[&THREE_BYTES],
        steps: &[Step::Send { sample: 0, mtu: 0 }],
        counts: &[0],
        payloads: &[],
        pops: &[],
    },
    RunRow {
        name: "g7xx-as-opus, Opus at an MTU of 0",
        sender: Sender::OfCodec(Codec::Opus),
        codec: Codec::Opus,
        frames: &[&THREE_BYTES],
        steps: &[Step::Send { sample: 0, mtu: 0 }],
        counts: &[0],
        payloads: &[],
        pops: &[],
    },
    RunRow {
        name: "null-empty-frame",
        sender: Sender::OfCodec(Codec::Null),
        codec: Codec::Null,
        frames: &[&[]],
        steps: &[
            Step::Send { sample: 0, mtu: 0 },
            Step::Push(0),
            Step::Pop,
            Step::Pop,
        ],
        counts: &[1],
        payloads: &[&[]],
        pops: &[
            Popped::Unit(Unit {
                bytes: &[],
                numbers: (10, 10),
                contiguous: true,
                told: Told::Nothing,
            }),
            Popped::Nothing,
        ],
    },
    // An empty payload, as Null sends it, is no comfort noise: its frame is refused, and has left.
    RunRow {
        name: "cn-empty-fault",
        sender: Sender::OfCodec(Codec::Null),
        codec: Codec::CN,
        frames: &[&[]],
        steps: &[
            Step::Send { sample: 0, mtu: 0 },
            Step::Push(0),
            Step::Pop,
            Step::Pop,
        ],
        counts: &[1],
        payloads: &[&[]],
        pops: &[Popped::Fault(1), Popped::Nothing],
    },
    RunRow {
        name: "vp8-equal-times-apart",
        sender: Sender::OfCodec(Codec::Vp8),
        codec: Codec::Vp8,
        frames: &[&[0x91, 0x92]],
        steps: &[
            Step::Send { sample: 0, mtu: 2 },
            Step::Send { sample: 0, mtu: 2 },
            Step::Push(0),
            Step::Push(2),
            Step::Push(3),
            Step::Pop,
            Step::Pop,
        ],
        counts: &[2, 2],
        payloads: &[&[0x10, 0x91], &[0x00, 0x92], &[0x10, 0x91], &[0x00, 0x92]],
        pops: &[
            Popped::Unit(Unit {
                bytes: &[0x91, 0x92],
                numbers: (12, 13),
                contiguous: true,
                told: Told::Nothing,
            }),
            Popped::Nothing,
        ],
    },
    RunRow {
        name: "av1-leading-obu-lost",
        sender: Sender::OfCodec(Codec::Av1),
        codec: Codec::Av1,
        frames: &[&TWO_OBUS],
        steps: &[
            Step::Send { sample: 0, mtu: 3 },
            Step::Push(1),
            Step::Push(2),
            Step::Pop,
        ],
        counts: &[3],
        payloads: &[&[0x18, 0x08, 0xaa], &[0x50, 0x30, 0xbb], &[0x90, 0xcc]],
        pops: &[Popped::Unit(Unit {
            bytes: &[0x32, 0x02, 0xbb, 0xcc],
            numbers: (11, 12),
            contiguous: true,
            told: Told::IsKeyframe(false),
        })],
    },
    RunRow {
        name: "av1-mtu-2-five-packets",
        sender: Sender::OfCodec(Codec::Av1),
        codec: Codec::Av1,
        frames: &[&TWO_OBUS_UNIT],
        steps: &[
            Step::Send { sample: 0, mtu: 2 },
            Step::Push(4),
            Step::Push(3),
            Step::Push(2),
            Step::Push(1),
            Step::Push(0),
            Step::Pop,
            Step::Pop,
        ],
        counts: &[5],
        payloads: &PACKETS_OF_TWO,
        pops: &[
            Popped::Unit(Unit {
                bytes: &TWO_OBUS_UNIT,
                numbers: (10, 14),
                contiguous: true,
                told: Told::IsKeyframe(true),
            }),
            Popped::Nothing,
        ],
    },
    RunRow {
        name: "av1-mtu-2-first-lost",
        sender: Sender::OfCodec(Codec::Av1),
        codec: Codec::Av1,
        frames: &[&TWO_OBUS_UNIT],
        steps: &[
            Step::Send { sample: 0, mtu: 2 },
            Step::Push(1),
            Step::Push(2),
            Step::Push(3),
            Step::Push(4),
            Step::Pop,
        ],
        counts: &[5],
        payloads: &PACKETS_OF_TWO,
        pops: &[Popped::Unit(Unit {
            bytes: &[0x32, 0x02, 0xbb, 0xcc],
            numbers: (12, 14),
            contiguous: true,
            told: Told::IsKeyframe(false),
        })],
    },
    RunRow {
        name: "vp8-id-two-frames",
        sender: Sender::Vp8WithIds(0x20),
        codec: Codec::Vp8,
        frames: &[&[0x90, 0x90, 0x90], &[0x91, 0x91]],
        steps: &[
            Step::Send { sample: 0, mtu: 5 },
            Step::Send { sample: 1, mtu: 5 },
            Step::Push(0),
            Step::Push(1),
            Step::Push(2),
            Step::Pop,
            Step::Pop,
            Step::Pop,
        ],
        counts: &[2, 1],
        payloads: &[
            &[0x90, 0x80, 0x20, 0x90, 0x90],
            &[0x80, 0x80, 0x20, 0x90],
            &[0x90, 0x80, 0x21, 0x91, 0x91],
        ],
        pops: &[
            Popped::Unit(Unit {
                bytes: &[0x90, 0x90, 0x90],
                numbers: (10, 11),
                contiguous: true,
                told: Told::PictureId(0x20),
            }),
            Popped::Unit(Unit {
                bytes: &[0x91, 0x91],
                numbers: (12, 12),
                contiguous: true,
                told: Told::PictureId(0x21),
            }),
            Popped::Nothing,
        ],
    },
    RunRow {
        name: "vp8-id-wrap-15",
        sender: Sender::Vp8WithIds(0x7fff),
        codec: Codec::Vp8,
        frames: &[&[0x90], &[0x90]],
        steps: &[
            Step::Send { sample: 0, mtu: 5 },
            Step::Send { sample: 1, mtu: 5 },
            Step::Push(0),
            Step::Push(1),
            Step::Pop,
            Step::Pop,
            Step::Pop,
        ],
        counts: &[1, 1],
        payloads: &[&[0x90, 0x80, 0xff, 0xff, 0x90], &[0x90, 0x80, 0x00, 0x90]],
        pops: &[
            Popped::Unit(Unit {
                bytes: &[0x90],
                numbers: (10, 10),
                contiguous: true,
                told: Told::PictureId(32_767),
            }),
            Popped::Unit(Unit {
                bytes: &[0x90],
                numbers: (11, 11),
                contiguous: true,
                told: Told::PictureId(32_768),
            }),
            Popped::Nothing,
        ],
    },
    RunRow {
        name: "vp9-nonflex-two-packets",
        sender: Sender::Vp9(Vp9PacketizerMode::NonFlexible, 0x1234),
        codec: Codec::Vp9,
        frames: &[&[0x82, 0x49, 0x83]],
        steps: &[
            Step::Send { sample: 0, mtu: 10 },
            Step::Push(0),
            Step::Push(1),
            Step::Pop,
            Step::Pop,
        ],
        counts: &[2],
        payloads: &[
            &[0xaa, 0x92, 0x34, 0x10, 0x01, 0x00, 0x82, 0x49],
            &[0xa4, 0x92, 0x34, 0x10, 0x01, 0x83],
        ],
        pops: &[
            Popped::Unit(Unit {
                bytes: &[0x82, 0x49, 0x83],
                numbers: (10, 11),
                contiguous: true,
                told: Told::PictureId(0x1234),
            }),
            Popped::Nothing,
        ],
    },
    RunRow {
        name: "vp9-flex-two-packets",
        sender: Sender::Vp9(Vp9PacketizerMode::Flexible, 0x1234),
        codec: Codec::Vp9,
        frames: &[&[0x82, 0x49, 0x83]],
        steps: &[
            Step::Send { sample: 0, mtu: 5 },
            Step::Push(0),
            Step::Push(1),
            Step::Pop,
            Step::Pop,
        ],
        counts: &[2],
        payloads: &[&[0x98, 0x92, 0x34, 0x82, 0x49], &[0x94, 0x92, 0x34, 0x83]],
        pops: &[
            Popped::Unit(Unit {
                bytes: &[0x82, 0x49, 0x83],
                numbers: (10, 11),
                contiguous: true,
                told: Told::PictureId(0x1234),
            }),
            Popped::Nothing,
        ],
    },
    // A frame that no packet is sent of, since the MTU is its descriptor's length, has used a TL0PICIDX: so the frame after it
    // does not follow, though its number does.
    RunRow {
        name: "vp9-skipped-frame",
        sender: Sender::Vp9(Vp9PacketizerMode::NonFlexible, 0),
        codec: Codec::Vp9,
        frames: &[&[0x82, 0x49, 0x83], &[0x86, 0x00]],
        steps: &[
            Step::Send {
                sample: 0,
                mtu: 1_200,
            },
            Step::Send { sample: 1, mtu: 8 },
            Step::Send {
                sample: 1,
                mtu: 1_200,
            },
            Step::Push(0),
            Step::Push(1),
            Step::Pop,
            Step::Pop,
        ],
        counts: &[1, 0, 1],
        payloads: &[
            &[0xae, 0x80, 0x00, 0x10, 0x01, 0x00, 0x82, 0x49, 0x83],
            &[0xec, 0x80, 0x01, 0x10, 0x03, 0x86, 0x00],
        ],
        pops: &[
            Popped::Unit(Unit {
                bytes: &[0x82, 0x49, 0x83],
                numbers: (10, 10),
                contiguous: true,
                told: Told::PictureId(0),
            }),
            Popped::Unit(Unit {
                bytes: &[0x86, 0x00],
                numbers: (11, 11),
                contiguous: false,
                told: Told::PictureId(1),
            }),
        ],
    },
];
