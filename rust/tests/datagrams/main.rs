//! RTP packets, numbers and receivers, by test vectors: bytes of the standards' figures, and the results of a receiver, event by
//! event.

mod amr_wb;
mod choice;
mod elements;
mod events;
mod hostile;
mod packets;
mod parsed;
mod receiver;
mod sender;
mod values;

/// Why a test fails.
pub type Fail = Box<dyn std::error::Error>;
