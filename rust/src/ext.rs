//! What Rust users expect beside the generated sources, written by hand.
//!
//! Nothing here is proved. Each item is a few lines over calls that are.

mod bounds;
#[cfg(feature = "std")]
pub(crate) mod clock;
pub(crate) mod conversions;
mod defaults;
pub(crate) mod iterators;
pub(crate) mod names;
pub(crate) mod popped;
mod settings;
pub(crate) mod values;
