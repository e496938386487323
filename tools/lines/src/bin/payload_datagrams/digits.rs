//! Bytes as hexadecimal digits. The allocator ends the program if memory runs out, so these calls do not fail.

const HAS_MEMORY: &str = "the allocator ends the program if memory runs out";

/// The bytes that a field spells: an even, nonzero number of hexadecimal digits in either case, or `-` for no bytes.
pub fn hex_field(text: &str) -> Option<Vec<u8>> {
    payload_lines::digits::hex_field(text).expect(HAS_MEMORY)
}

/// The lower-case digits of bytes, two for each, or `-` for no bytes.
pub fn hex_text(bytes: &[u8]) -> String {
    payload_lines::digits::hex_text(bytes).expect(HAS_MEMORY)
}
