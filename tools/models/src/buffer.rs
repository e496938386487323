//! A buffer by docs/use/BUFFER.md, and VP8's descriptor and picture ids by docs/use/FORMATS.md.

use crate::dice::Dice;
use codec_payload::{
    Codec, CodecDepacketizer, DepacketizingBuffer, MediaTime, Pt, RtpMeta, SeqNo, Ticks,
};
use std::collections::BTreeMap;

/// A packet as the one who made it knows it.
#[derive(Clone, Debug)]
struct Packet {
    time: u64,
    begins: bool,
    ends: bool,
    /// Picture id of 7 bits, TL0PICIDX and temporal layer.
    ids: Option<(u64, u64, u64)>,
    /// What the packet adds to the unit; `None`: the payload ends with its descriptor.
    piece: Option<Vec<u8>>,
    payload: Vec<u8>,
}

impl Packet {
    /// A packet of VP8. Packets of one time have the same ids.
    fn of_vp8(dice: &mut Dice, number: u64, with_ids: bool) -> Packet {
        let time = number / 3 + dice.below(2) * u64::from(dice.one_in(8));
        let (begins, ends) = (
            number.is_multiple_of(3) || dice.one_in(6),
            number % 3 == 2 || dice.one_in(6),
        );
        let ids =
            (with_ids && time % 5 != 4).then(|| ((time * 3 / 2) % 128, (time / 2) % 256, time % 2));
        let mut payload = vec![if begins { 0x10 } else { 0 }];
        if let Some((picture, base, layer)) = ids {
            payload[0] |= 0x80;
            payload.extend([0xe0, picture as u8, base as u8, (layer as u8) << 6]);
        }
        let piece = (ids.is_some() || !dice.one_in(12))
            .then(|| vec![(number % 251) as u8; 1 + dice.below(3) as usize]);
        payload.extend(piece.iter().flatten());
        Packet {
            time,
            begins,
            ends,
            ids,
            piece,
            payload,
        }
    }

    /// A packet of Opus: a whole frame.
    fn of_opus(dice: &mut Dice, number: u64) -> Packet {
        let payload = vec![(number % 251) as u8; 1 + dice.below(3) as usize];
        Packet {
            time: number * 960,
            begins: true,
            ends: true,
            ids: None,
            piece: Some(payload.clone()),
            payload,
        }
    }

    /// Whether the payload says that its frame is a keyframe: S is set, and the low bit of the first byte is 0.
    fn is_key(&self) -> bool {
        self.begins && self.piece.as_ref().is_some_and(|piece| piece[0] % 2 == 0)
    }
}

/// The answer of a pop.
#[derive(Debug, PartialEq, Eq)]
enum Answer {
    Nothing,
    Fault(u8),
    Unit {
        first: u64,
        last: u64,
        contiguous: bool,
        bytes: Vec<u8>,
    },
}

#[derive(Debug)]
struct Model {
    vp8: bool,
    limit: usize,
    hold_back: usize,
    held: BTreeMap<u64, Packet>,
    cutoff: Option<u64>,
    mark: bool,
    /// The ids of the last frame that was released with both.
    old: Option<(u64, u64)>,
    /// What the depacketizer read last: the raw and the extended picture id, and the extended TL0PICIDX.
    read: Option<(u64, u64, u64)>,
}

impl Model {
    fn push(&mut self, number: u64, packet: Packet) {
        if self.cutoff.is_some_and(|cutoff| number <= cutoff) || self.held.contains_key(&number) {
            return;
        }
        self.held.insert(number, packet);
        if self.held.len() > self.limit {
            let (lowest, _) = self.held.pop_first().expect("more than the limit");
            self.cutoff = Some(lowest);
            self.mark = true;
        }
    }

    /// The complete frames, by their first and last numbers.
    fn frames(&self) -> Vec<(u64, u64)> {
        let mut found: Vec<_> = self
            .held
            .iter()
            .filter(|(_, it)| it.ends)
            .filter_map(|(&last, end)| {
                let mut first = end.begins.then_some(last);
                let mut number = last;
                while number > 0 {
                    number -= 1;
                    match self.held.get(&number) {
                        Some(it) if it.time == end.time && !it.ends => {
                            first = if it.begins { Some(number) } else { first }
                        }
                        _ => break,
                    }
                }
                first.map(|first| (first, last))
            })
            .collect();
        found.sort_unstable();
        found
    }

    fn pop(&mut self) -> Answer {
        loop {
            let frames = self.frames();
            let Some(&(first, last)) = frames.first() else {
                return Answer::Nothing;
            };
            let follows_cutoff = self.cutoff.is_none_or(|cutoff| cutoff + 1 == first);
            if !follows_cutoff && frames.len() <= self.hold_back {
                return Answer::Nothing;
            }
            let follows = self.cutoff.is_none() || !self.mark && follows_cutoff;
            let packets: Vec<_> = self
                .held
                .range(first..=last)
                .map(|(_, it)| it.clone())
                .collect();
            self.held = self.held.split_off(&(last + 1));
            self.cutoff = Some(last);
            if packets.iter().any(|it| it.piece.is_none()) {
                return Answer::Fault(1);
            }
            let (may_go, contiguous) = self.verdict(&packets, follows);
            if may_go {
                self.mark = false;
                let bytes = packets
                    .iter()
                    .flat_map(|it| it.piece.clone().unwrap_or_default())
                    .collect();
                return Answer::Unit {
                    first,
                    last,
                    contiguous,
                    bytes,
                };
            }
        }
    }

    /// The table of contiguity: whether the frame may be released, and whether it is contiguous then.
    fn verdict(&mut self, packets: &[Packet], follows: bool) -> (bool, bool) {
        let ids = if self.vp8 {
            self.extended(packets)
        } else {
            None
        };
        let Some((picture, base, layer)) = ids else {
            return (true, follows);
        };
        let is_key = packets.iter().any(Packet::is_key);
        let Some((old_picture, old_base)) = self.old else {
            self.old = Some((picture, base));
            return (true, true);
        };
        let (may_go, contiguous) = if is_key && picture <= old_picture {
            (true, false)
        } else if picture <= old_picture {
            (false, false)
        } else if layer == 0 {
            (true, base == old_base.wrapping_add(1))
        } else if base == old_base && picture == old_picture.wrapping_add(1) {
            (true, true)
        } else {
            (false, false)
        };
        if may_go {
            self.old = Some((picture, base));
        }
        (may_go, contiguous)
    }

    /// Extends the ids of a frame, as its payloads are read, and returns those of the last.
    fn extended(&mut self, packets: &[Packet]) -> Option<(u64, u64, u64)> {
        let mut found = None;
        for (picture, base, layer) in packets.iter().filter_map(|it| it.ids) {
            let (long, long_base) = match self.read {
                None => (picture, base),
                Some((raw, long, long_base)) => (
                    long.wrapping_add(moved(raw, picture, 128)),
                    long_base.wrapping_add(moved(long_base % 256, base, 256)),
                ),
            };
            self.read = Some((picture, long, long_base));
            found = Some((long, long_base, layer));
        }
        found
    }
}

/// By how much an id moves on a circle: forward up to half of it, else back; modulo 2^64.
fn moved(from: u64, to: u64, range: u64) -> u64 {
    let ahead = (to + range - from % range) % range;
    if ahead <= range / 2 {
        ahead
    } else {
        ahead.wrapping_sub(range)
    }
}

fn meta(number: u64, packet: &Packet) -> RtpMeta {
    let mut meta = RtpMeta::of(
        SeqNo::from(number),
        MediaTime::from_90khz(packet.time),
        Pt::from(96),
        Ticks(0),
    );
    meta.header.marker = packet.ends;
    meta
}

/// One schedule, up to 60 calls. Returns how many were compared.
pub fn schedule(dice: &mut Dice) -> u64 {
    let vp8 = dice.one_in(2);
    let (limit, hold_back) = (1 + dice.below(12) as usize, dice.below(4) as usize);
    let codec = if vp8 { Codec::Vp8 } else { Codec::Opus };
    let depacketizer = CodecDepacketizer::try_from(codec).expect("a codec with a depacketizer");
    let mut buffer = DepacketizingBuffer::with_limit(depacketizer, hold_back, limit);
    let with_ids = dice.one_in(2);
    let mut model = Model {
        vp8,
        limit,
        hold_back,
        held: BTreeMap::new(),
        cutoff: None,
        mark: false,
        old: None,
        read: None,
    };
    let start = dice.of(&[0, 1, 100]);
    let calls = 1 + dice.below(60);
    for call in 0..calls {
        if dice.below(3) == 0 {
            assert_eq!(
                answer_of(&mut buffer),
                model.pop(),
                "call {call}: {model:?}"
            );
        } else if dice.one_in(20) {
            model.hold_back = dice.below(4) as usize;
            buffer.set_hold_back(model.hold_back);
        } else {
            let number = start + call / 2 + dice.below(8);
            let packet = if vp8 {
                Packet::of_vp8(dice, number, with_ids)
            } else {
                Packet::of_opus(dice, number)
            };
            buffer
                .push(meta(number, &packet), packet.payload.clone())
                .expect("memory");
            model.push(number, packet);
        }
        assert_eq!(buffer.held(), model.held.len(), "call {call}: {model:?}");
        assert_eq!(
            buffer.ready(),
            model.frames().len(),
            "call {call}: {model:?}"
        );
        assert_eq!(
            buffer.cutoff().map(u64::from),
            model.cutoff,
            "call {call}: {model:?}"
        );
    }
    calls
}

fn answer_of(buffer: &mut DepacketizingBuffer) -> Answer {
    match buffer.pop() {
        None => Answer::Nothing,
        Some(Err(fault)) => Answer::Fault(fault.number()),
        Some(Ok(unit)) => {
            let numbers: Vec<_> = unit.meta().iter().map(|it| u64::from(it.seq_no)).collect();
            Answer::Unit {
                first: numbers[0],
                last: numbers[numbers.len() - 1],
                contiguous: unit.contiguous,
                bytes: unit.bytes,
            }
        }
    }
}
