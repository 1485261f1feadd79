//! Which bits of lent bytes a call sees.

/// A window of bits over bytes, the bits from `start` to `end`, with a call's first bit `pos`. Bits are numbered from 0, most significant bit
/// of byte 0 first. It is good where start ≤ pos ≤ end, and end is at most 65,536 and at most 8 × the bytes; a call refuses any other.
#[derive(Clone, Copy, Debug, PartialEq, Eq, Hash)]
pub struct Cursor {
    pub start: usize,
    pub pos: usize,
    pub end: usize,
}

impl Cursor {
    /// The first bits of some bytes, from bit 0.
    pub fn new(len_bits: usize) -> Self {
        Cursor { start: 0, pos: 0, end: len_bits }
    }

    /// All bits of some bytes, from bit 0.
    pub fn from_bytes(s: &[u8]) -> Self {
        Cursor::new(s.len().saturating_mul(8))
    }

    /// The same window with the cursor at another bit.
    pub fn at(self, pos: usize) -> Self {
        Cursor { pos, ..self }
    }
}
