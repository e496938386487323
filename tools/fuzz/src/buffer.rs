//! The buffer beside a model: a sorted map of numbers.

use crate::input::Input;
use codec_payload::*;
use std::collections::BTreeMap;

/// What the documentation of the buffer says of units of one packet each.
struct Model {
    held: BTreeMap<u64, u8>,
    cutoff: Option<u64>,
    hold_back: usize,
    limit: usize,
}

impl Model {
    fn push(&mut self, number: u64, byte: u8) {
        if self.cutoff.is_some_and(|cutoff| number <= cutoff) || self.held.contains_key(&number) {
            return;
        }
        self.held.insert(number, byte);
        if self.held.len() > self.limit {
            self.cutoff = self.held.pop_first().map(|(number, _)| number);
        }
    }

    fn pop(&mut self) -> Option<(u64, u8)> {
        let (first, _) = self.held.first_key_value()?;
        let is_next = self.cutoff.is_none_or(|cutoff| cutoff + 1 == *first);
        if !is_next && self.held.len() <= self.hold_back {
            return None;
        }
        let (number, byte) = self.held.pop_first()?;
        self.cutoff = Some(number);
        Some((number, byte))
    }
}

/// Packets of Opus, each a unit, in any order.
pub fn buffer(input: &mut Input) {
    let (hold_back, limit) = (
        usize::from(input.byte() % 9),
        1 + usize::from(input.byte() % 20),
    );
    let mut buffer: DepacketizingBuffer = DepacketizingBuffer::with_limit(
        CodecDepacketizer::Opus(OpusDepacketizer {}),
        hold_back,
        limit,
    );
    let mut model = Model {
        held: BTreeMap::new(),
        cutoff: None,
        hold_back,
        limit,
    };
    while !input.is_empty() {
        let how = input.byte();
        if how < 0x60 {
            let unit = buffer
                .pop()
                .map(|unit| unit.expect("Opus refuses no packet"));
            let found = unit.map(|unit| (unit.seq_range().start().0, unit.bytes[0]));
            assert_eq!(found, model.pop());
        } else if how < 0x70 {
            let hold_back = usize::from(input.byte() % 9);
            buffer.set_hold_back(hold_back);
            model.hold_back = hold_back;
        } else {
            let (number, byte) = (u64::from(input.byte() % 64), how);
            let meta = RtpMeta::of(
                SeqNo(number),
                MediaTime::from_90khz(number),
                Pt::from(96),
                Ticks(0),
            );
            buffer.push(meta, vec![byte]).unwrap();
            model.push(number, byte);
        }
        assert_eq!(
            (buffer.held(), buffer.cutoff().map(|it| it.0)),
            (model.held.len(), model.cutoff)
        );
        assert_eq!(buffer.ready(), model.held.len());
    }
}
