//! The worked examples of the buffer, of payloaders and of whole runs, the programs of docs/develop/RATTLE.md, and hostile input.
//! The test of a module is in the file of that name.

mod asserts;
mod boxes;
mod buffer;
mod codec;
mod contiguity;
mod gateway;
mod hostile;
mod library;
mod own_codec;
mod own_counts;
mod payloads;
mod runs;
mod send;
mod use_it;

/// Why a test fails.
pub type Fail = Box<dyn std::error::Error>;
