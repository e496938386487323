//! Bytes as a sequence of decisions.

/// The unread bytes of an input. Past its end all bytes are 0.
pub struct Input<'a>(pub &'a [u8]);

impl<'a> Input<'a> {
    pub fn is_empty(&self) -> bool {
        self.0.is_empty()
    }

    pub fn byte(&mut self) -> u8 {
        let Some((first, rest)) = self.0.split_first() else {
            return 0;
        };
        self.0 = rest;
        *first
    }

    pub fn word(&mut self) -> u16 {
        u16::from_be_bytes([self.byte(), self.byte()])
    }

    pub fn take(&mut self, count: usize) -> &'a [u8] {
        let (taken, rest) = self.0.split_at(count.min(self.0.len()));
        self.0 = rest;
        taken
    }

    /// Bytes, mostly a few.
    pub fn some(&mut self) -> &'a [u8] {
        let size = self.byte();
        let count = if size < 0xf0 {
            usize::from(size % 64)
        } else {
            usize::from(self.word() % 2_048)
        };
        self.take(count)
    }
}
