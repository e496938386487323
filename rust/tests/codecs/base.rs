//! What no clause says of the base crate: texts of faults, defaults, and the worked examples of bits and numbers.

mod bits;
mod error;
mod wire;
