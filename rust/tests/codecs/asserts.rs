//! Assertions, each proved once for all tests. Each names the example that it fails in.

use codec_payload::memory::AllocError;
use std::fmt::{Debug, Display};

/// Fails if the found value differs from the expected one, and names the example.
pub fn assert_same<T: Debug + PartialEq>(name: &str, found: &T, wanted: &T) {
    assert_eq!(*found, *wanted, "in {name}");
}

/// Fails if the found bytes differ from the expected ones, and names the example.
pub fn assert_bytes(name: &str, found: &[u8], wanted: &[u8]) {
    assert_eq!(found, wanted, "in {name}");
}

/// Fails if the found value is the other one, and names the example.
pub fn assert_other<T: Debug + PartialEq>(name: &str, found: &T, other: &T) {
    assert_ne!(*found, *other, "in {name}");
}

/// A value is printed as this text.
pub fn assert_printed<T: Display>(value: &T, text: &str) -> Result<(), AllocError> {
    let printed = format!("{value}");
    assert_eq!(printed.as_str(), text);
    Ok(())
}

/// A value is shown as this text, which names its fields.
pub fn assert_shown<T: Debug>(value: &T, text: &str) -> Result<(), AllocError> {
    let shown = format!("{value:?}");
    assert_eq!(shown.as_str(), text);
    Ok(())
}
