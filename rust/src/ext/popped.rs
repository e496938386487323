//! What a pop took out of a receiver, and datagrams that may be anything.

use crate::codec::Depacketizer;
use crate::error::PacketError;
use crate::jitter::Outcome;
use crate::memory::AllocError;
use crate::stream::{Popped, ReceiveError, Receiver};
use crate::wire::Ticks;
use core::error::Error;
use core::fmt;

/// Why a frame of a stream has no unit to show. The stream continues after it.
#[derive(Clone, Copy, Debug, PartialEq, Eq)]
#[non_exhaustive]
pub enum LostFrame {
    /// The depacketizer refused it; see [`Popped::Refused`].
    Refused(PacketError),
    /// It has more bytes than the settings allow; see [`Popped::TooLarge`].
    TooLarge,
}

impl fmt::Display for LostFrame {
    fn fmt(&self, f: &mut fmt::Formatter<'_>) -> fmt::Result {
        match self {
            LostFrame::Refused(fault) => write!(f, "frame refused: {fault}"),
            LostFrame::TooLarge => f.write_str("unit larger than the settings allow"),
        }
    }
}

impl Error for LostFrame {}

impl<U> Popped<U> {
    /// Returns the unit, or `None` for a refused frame or a unit that is too large.
    #[must_use]
    pub fn unit(self) -> Option<U> {
        self.into_result().ok()
    }

    /// Returns the unit, or why there is none.
    ///
    /// # Errors
    ///
    /// The frame was refused, or the unit is too large, which is dropped here.
    pub fn into_result(self) -> Result<U, LostFrame> {
        match self {
            Popped::Unit(unit) => Ok(unit),
            Popped::TooLarge(_) => Err(LostFrame::TooLarge),
            Popped::Refused(fault) => Err(LostFrame::Refused(fault)),
        }
    }
}

impl<B: Depacketizer> Receiver<B> {
    /// Receives a datagram that may be anything, as a socket gives it: the same as [`Receiver::receive`], and a malformed
    /// datagram, which is counted, is `None`. So `?` ends a program only without memory.
    ///
    /// # Errors
    ///
    /// Out of memory: see [`Receiver::receive`].
    pub fn receive_any(
        &mut self,
        now: Ticks,
        datagram: &[u8],
    ) -> Result<Option<Outcome>, AllocError> {
        match self.receive(now, datagram) {
            Ok(outcome) => Ok(Some(outcome)),
            Err(ReceiveError::OutOfMemory | ReceiveError::BlocksOutOfMemory) => Err(AllocError),
            Err(_) => Ok(None),
        }
    }
}
