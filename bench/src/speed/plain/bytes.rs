//! Bytes of a slice, zero past its end.

pub fn byte(bytes: &[u8], at: usize) -> u8 {
    bytes.get(at).copied().unwrap_or(0)
}

/// The number of the two bytes from `at` on.
pub fn two(bytes: &[u8], at: usize) -> u32 {
    byte(bytes, at) as u32 + 256 * byte(bytes, at + 1) as u32
}

/// The number of the four bytes from `at` on.
pub fn four(bytes: &[u8], at: usize) -> u32 {
    two(bytes, at) + 65536 * two(bytes, at + 2)
}

/// Whether every byte from `from` on is zero.
pub fn zeros_from(bytes: &[u8], from: usize) -> bool {
    bytes.iter().skip(from).all(|b| *b == 0)
}
