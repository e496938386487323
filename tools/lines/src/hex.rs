//! The calls of the crate `hex` that the sources of `digits` make. The proved program uses the `hex` of the Rattle kit.

use codec_payload::AllocError;

/// Why a text does not decode.
#[derive(Debug, PartialEq, Eq)]
pub enum FromHexError {
    /// A character that is not a hexadecimal digit.
    InvalidHexCharacter {
        c: char,
        index: usize,
    },
    /// An odd number of digits.
    OddLength,
    OutOfMemory,
}

/// The byte of each two digits, the high four bits first.
pub fn decode(text: &str) -> Result<Vec<u8>, FromHexError> {
    if !text.len().is_multiple_of(2) {
        return Err(FromHexError::OddLength);
    }
    let mut bytes = Vec::new();
    let room = bytes.try_reserve_exact(text.len() / 2);
    room.map_err(|_| FromHexError::OutOfMemory)?;
    for (place, pair) in text.as_bytes().chunks_exact(2).enumerate() {
        bytes.push(digit(pair[0], 2 * place)? << 4 | digit(pair[1], 2 * place + 1)?);
    }
    Ok(bytes)
}

fn digit(byte: u8, index: usize) -> Result<u8, FromHexError> {
    let c = char::from(byte);
    let value = c.to_digit(16).and_then(|it| u8::try_from(it).ok());
    value.ok_or(FromHexError::InvalidHexCharacter { c, index })
}

/// The lower-case digits of bytes, two for each.
pub fn encode(bytes: &[u8]) -> Result<String, AllocError> {
    let mut text = String::new();
    text.try_reserve_exact(2 * bytes.len())?;
    for byte in bytes {
        for value in [byte >> 4, byte & 15] {
            text.push(char::from_digit(u32::from(value), 16).unwrap_or_default());
        }
    }
    Ok(text)
}
