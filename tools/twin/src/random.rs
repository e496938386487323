//! Inputs that are the same for the same seed.

/// The same bytes for the same seed: up to 6,000, of which a quarter are small.
pub fn random_bytes(seed: u64) -> Vec<u8> {
    let mut state = seed.wrapping_mul(0x9e37_79b9_7f4a_7c15) | 1;
    let mut next = || {
        state ^= state << 13;
        state ^= state >> 7;
        state ^= state << 17;
        state
    };
    let size = next() % 6_000;
    (0..size)
        .map(|_| {
            let bits = next();
            if bits & 0x300 == 0 {
                bits as u8 & 0x17
            } else {
                bits as u8
            }
        })
        .collect()
}
