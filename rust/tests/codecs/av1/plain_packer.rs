//! A packer that takes byte after byte, and measures the whole payload each time.

use codec_payload::memory::{AllocError, TryVec};

/// How many bytes a length takes.
fn leb_size(number: usize) -> usize {
    let mut rest = number;
    for size in 1..10usize {
        if rest < 128 {
            return size;
        }
        rest /= 128;
    }
    10
}

/// Writes a length at the end.
pub fn put_leb(out: &mut Vec<u8>, number: usize) -> Result<(), AllocError> {
    let mut rest = number;
    for _ in 1..leb_size(number) {
        out.try_push((rest % 128) as u8 + 128)?;
        rest /= 128;
    }
    out.try_push((rest % 128) as u8)?;
    Ok(())
}

/// The payload that is being filled.
struct Filling {
    continues: bool,
    elements: Vec<Vec<u8>>,
}

impl Filling {
    /// The length of the payload.
    fn size(&self) -> usize {
        let mut size = 1usize;
        for (i, element) in self.elements.iter().enumerate() {
            size = size.saturating_add(element.len());
            if self.elements.len() > 3 || i + 1 < self.elements.len() {
                size = size.saturating_add(leb_size(element.len()));
            }
        }
        size
    }

    /// Adds a byte, in a new element where there is none that it goes on.
    fn push(&mut self, byte: u8, is_first: bool) -> Result<(), AllocError> {
        if is_first || self.elements.is_empty() {
            self.elements.try_push(Vec::new())?;
        }
        if let Some(element) = self.elements.last_mut() {
            element.try_push(byte)?;
        }
        Ok(())
    }

    /// Takes the last byte away.
    fn pop(&mut self) {
        let is_empty = match self.elements.last_mut() {
            Some(element) => {
                element.pop();
                element.is_empty()
            }
            None => false,
        };
        if is_empty {
            self.elements.pop();
        }
    }

    fn write(&self, goes_on: bool, starts: bool) -> Result<Vec<u8>, AllocError> {
        let count = self.elements.len();
        let w: u8 = if count > 3 { 0 } else { count as u8 };
        let z: u8 = if self.continues { 0x80 } else { 0 };
        let y: u8 = if goes_on { 0x40 } else { 0 };
        let n: u8 = if starts { 0x08 } else { 0 };
        let mut out = Vec::new();
        out.try_push(z | y | (w << 4) | n)?;
        for (i, element) in self.elements.iter().enumerate() {
            if count > 3 || i + 1 < count {
                put_leb(&mut out, element.len())?;
            }
            out.try_extend(element)?;
        }
        Ok(out)
    }
}

/// The payloads so far, and the one that is being filled.
struct Packing {
    /// Whether N stands on the first payload.
    starts: bool,
    packets: Vec<Vec<u8>>,
    filling: Filling,
}

impl Packing {
    /// Ends the payload that is being filled.
    fn end(&mut self, goes_on: bool) -> Result<(), AllocError> {
        let starts = self.starts && self.packets.is_empty();
        self.packets
            .try_push(self.filling.write(goes_on, starts)?)?;
        self.filling = Filling {
            continues: goes_on,
            elements: Vec::new(),
        };
        Ok(())
    }

    /// Adds a byte, in a new payload where this one would be longer than the MTU.
    fn put(&mut self, mtu: usize, byte: u8, is_first: bool) -> Result<(), AllocError> {
        self.filling.push(byte, is_first)?;
        if self.filling.size() > mtu {
            self.filling.pop();
            self.end(!is_first)?;
            self.filling.push(byte, true)?;
        }
        Ok(())
    }
}

/// The payloads of strings: each takes the next byte as long as it then stays within the MTU. N stands on the first where
/// the first string is a sequence header.
pub fn plain_packets(mtu: usize, strings: &[Vec<u8>]) -> Result<Vec<Vec<u8>>, AllocError> {
    let starts = match strings {
        [first, ..] => first.first() == Some(&0x08),
        [] => false,
    };
    let mut packing = Packing {
        starts,
        packets: Vec::new(),
        filling: Filling {
            continues: false,
            elements: Vec::new(),
        },
    };
    for string in strings {
        for (i, byte) in string.iter().enumerate() {
            packing.put(mtu, *byte, i == 0)?;
        }
    }
    if !packing.filling.elements.is_empty() {
        packing.end(false)?;
    }
    Ok(packing.packets)
}
