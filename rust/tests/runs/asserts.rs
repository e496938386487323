//! Assertions, each proved once for all tests. Each names the example that it fails in.

use codec_payload::memory::AllocError;
use std::fmt::Debug;

/// Fails if the found value differs from the expected one, and names the example.
pub fn assert_same<T: Debug + PartialEq>(name: &str, found: &T, wanted: &T) {
    assert_eq!(*found, *wanted, "in {name}");
}

/// Fails if the found bytes differ from the expected ones, and names the example.
pub fn assert_bytes(name: &str, found: &[u8], wanted: &[u8]) {
    assert_eq!(found, wanted, "in {name}");
}

/// Fails if the count differs from the expected one, and names the example.
pub fn assert_count(name: &str, found: usize, wanted: usize) {
    assert_eq!(found, wanted, "in {name}");
}

/// It holds, in the example of that name.
pub fn assert_holds(name: &str, holds: bool) {
    assert!(holds, "assertion failed: in {name}");
}

/// A value is shown as this text, which names its fields.
pub fn assert_shown<T: Debug>(value: &T, text: &str) -> Result<(), AllocError> {
    let shown = format!("{value:?}");
    assert_eq!(shown.as_str(), text);
    Ok(())
}
