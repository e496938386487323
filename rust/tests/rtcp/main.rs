//! RTCP packets: bytes of captured calls and of the standards' figures, and the fault of each kind of bytes that are refused.

mod reading;
mod writing;

/// Why a test fails.
pub type Fail = Box<dyn std::error::Error>;
