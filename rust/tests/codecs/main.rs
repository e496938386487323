//! The worked examples of the parts, of the codecs and of RED, by what the crate makes public. The test of a
//! module is in the file of that name.

mod asserts;
mod audio;
mod av1;
mod base;
mod media;
mod red;
mod tables;
mod vp8;
mod vp9;
mod vpx;

/// Why a test fails.
pub type Fail = Box<dyn std::error::Error>;
