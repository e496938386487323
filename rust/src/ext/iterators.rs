//! Iterators over units, payloads and datagrams.

use crate::buffer::{Depacketized, DepacketizingBuffer};
use crate::codec::{Depacketizer, NoBox, Packetizer};
use crate::error::PacketError;
use crate::jitter::JitterBuffer;
use crate::memory::AllocError;
use crate::payloads::Payloads;
use crate::sender::Sender;
use crate::stream::{Popped, Receiver};
use crate::wire::Ticks;
use core::iter::FusedIterator;

/// The units of a buffer that are due: pops until `None`. A refused frame is an `Err`, and the next item follows it. After
/// [`PacketError::OutOfMemory`] the iterator has ended: a frame stays, and another iterator tries it again.
#[derive(Debug)]
#[must_use = "units are popped as the iterator is used"]
pub struct Units<'a, P: ?Sized> {
    from: &'a mut P,
    now: Ticks,
    has_ended: bool,
}

/// What units are popped from.
pub trait PopUnits {
    /// Pops the next unit that is due at that time.
    fn pop_at(&mut self, now: Ticks) -> Option<Result<Depacketized, PacketError>>;
}

impl<B: Depacketizer> PopUnits for DepacketizingBuffer<B> {
    fn pop_at(&mut self, _now: Ticks) -> Option<Result<Depacketized, PacketError>> {
        self.pop()
    }
}

impl<B: Depacketizer> PopUnits for JitterBuffer<B> {
    fn pop_at(&mut self, now: Ticks) -> Option<Result<Depacketized, PacketError>> {
        self.pop(now)
    }
}

impl<'a, P: PopUnits + ?Sized> Units<'a, P> {
    fn new(from: &'a mut P, now: Ticks) -> Self {
        Units {
            from,
            now,
            has_ended: false,
        }
    }
}

impl<P: PopUnits + ?Sized> Iterator for Units<'_, P> {
    type Item = Result<Depacketized, PacketError>;

    fn next(&mut self) -> Option<Self::Item> {
        if self.has_ended {
            return None;
        }
        let unit = self.from.pop_at(self.now);
        self.has_ended = matches!(unit, None | Some(Err(PacketError::OutOfMemory)));
        unit
    }
}

impl<P: PopUnits + ?Sized> FusedIterator for Units<'_, P> {}

impl<B: Depacketizer> DepacketizingBuffer<B> {
    /// Pops all units that are due. See [`DepacketizingBuffer::pop`].
    pub fn units(&mut self) -> Units<'_, Self> {
        Units::new(self, Ticks(0))
    }

    /// Pops all complete units, without waiting for packets that are missing: sets `hold_back` to 0.
    pub fn drain(&mut self) -> Units<'_, Self> {
        self.set_hold_back(0);
        self.units()
    }
}

impl<'a, B: Depacketizer> IntoIterator for &'a mut DepacketizingBuffer<B> {
    type Item = Result<Depacketized, PacketError>;
    type IntoIter = Units<'a, DepacketizingBuffer<B>>;

    fn into_iter(self) -> Self::IntoIter {
        self.units()
    }
}

impl<B: Depacketizer> JitterBuffer<B> {
    /// Pops all units that are due at that time. See [`JitterBuffer::pop`].
    pub fn units(&mut self, now: Ticks) -> Units<'_, Self> {
        Units::new(self, now)
    }
}

/// The units of a stream that are due: pops until `None`. Refused frames and units that are too large are skipped;
/// [`StreamUnits::refused`] counts them. An `Err` is out of memory alone, and then the iterator has ended: the frame stays, and another iterator tries it again.
#[derive(Debug)]
#[must_use = "units are popped as the iterator is used"]
pub struct StreamUnits<'a, B = NoBox> {
    receiver: &'a mut Receiver<B>,
    now: Ticks,
    refused: u64,
    has_ended: bool,
}

impl<B> StreamUnits<'_, B> {
    /// Returns how many refused frames and units that are too large the iterator skipped so far.
    pub fn refused(&self) -> u64 {
        self.refused
    }
}

impl<B: Depacketizer> Iterator for StreamUnits<'_, B> {
    type Item = Result<Depacketized, AllocError>;

    fn next(&mut self) -> Option<Self::Item> {
        while !self.has_ended {
            match self.receiver.pop(self.now) {
                Some(Ok(Popped::Unit(unit))) => return Some(Ok(unit)),
                Some(Ok(Popped::Refused(_) | Popped::TooLarge(_))) => self.refused += 1,
                Some(Err(fault)) => {
                    self.has_ended = true;
                    return Some(Err(fault));
                }
                None => self.has_ended = true,
            }
        }
        None
    }
}

impl<B: Depacketizer> FusedIterator for StreamUnits<'_, B> {}

impl<B: Depacketizer> Receiver<B> {
    /// Pops all units that are due at that time, and skips refused frames and units that are too large. See
    /// [`Receiver::pop`], which reports these too.
    pub fn units(&mut self, now: Ticks) -> StreamUnits<'_, B> {
        StreamUnits {
            receiver: self,
            now,
            refused: 0,
            has_ended: false,
        }
    }

    /// Ends the stream and pops all complete units. See [`Receiver::finish`].
    ///
    /// # Errors
    ///
    /// Out of memory: see [`Receiver::finish`].
    pub fn drain(&mut self, now: Ticks) -> Result<StreamUnits<'_, B>, AllocError> {
        self.finish()?;
        Ok(self.units(now))
    }
}

/// The payloads of a frame, or its packets, in order.
#[derive(Clone, Debug)]
pub struct PayloadsIter<'a> {
    payloads: &'a Payloads,
    with_headers: bool,
    next: usize,
}

impl<'a> Iterator for PayloadsIter<'a> {
    type Item = &'a [u8];

    fn next(&mut self) -> Option<&'a [u8]> {
        let place = self.next;
        if place >= self.payloads.len() {
            return None;
        }
        self.next += 1;
        Some(if self.with_headers {
            self.payloads.packet(place)
        } else {
            self.payloads.get(place)
        })
    }

    fn size_hint(&self) -> (usize, Option<usize>) {
        let left = self.payloads.len() - self.next;
        (left, Some(left))
    }
}

impl ExactSizeIterator for PayloadsIter<'_> {}

impl Payloads {
    /// Returns the payloads in order.
    pub fn iter(&self) -> PayloadsIter<'_> {
        PayloadsIter {
            payloads: self,
            with_headers: false,
            next: 0,
        }
    }

    /// Returns the packets in order: each payload with the header that was put in front of it.
    pub fn packets(&self) -> PayloadsIter<'_> {
        PayloadsIter {
            payloads: self,
            with_headers: true,
            next: 0,
        }
    }
}

impl<'a> IntoIterator for &'a Payloads {
    type Item = &'a [u8];
    type IntoIter = PayloadsIter<'a>;

    fn into_iter(self) -> PayloadsIter<'a> {
        self.iter()
    }
}

impl<B: Packetizer> Sender<B> {
    /// Returns the datagrams of the sample that was sent last, in order. See [`Sender::datagram`].
    pub fn datagrams(&self) -> impl ExactSizeIterator<Item = &[u8]> {
        (0..self.len()).map(|place| self.datagram(place))
    }

    /// Whether the last sample has no datagrams: none was sent, the packetizer skipped it, or the call failed.
    pub fn is_empty(&self) -> bool {
        self.len() == 0
    }
}
