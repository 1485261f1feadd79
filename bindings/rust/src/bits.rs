//! Bits as one number.
use crate::sys;
use crate::{Cursor, Refusal};

/// Reads `num_bits` bits, 64 at most, and gives the cursor behind them.
pub fn read_bits(s: &[u8], c: Cursor, num_bits: usize) -> Result<(u64, Cursor), Refusal> {
    let mut out = [0u64; 2];
    // Slices go as pointer and count; the call keeps neither and writes only into out.
    let status = unsafe { sys::tetra_read_bits(s.as_ptr(), s.len(), c.start, c.pos, c.end, num_bits, out.as_mut_ptr(), out.len()) };
    Refusal::of_status(status)?;
    Ok((out[1], c.at(out[0] as usize)))
}

/// Reads `num_bits` bits, 64 at most, that begin `offset` bits after the cursor, before it where negative.
pub fn peek_bits_posoffset(s: &[u8], c: Cursor, offset: isize, num_bits: usize) -> Result<u64, Refusal> {
    let mut out = [0u64; 2];
    // As above.
    let status = unsafe {
        sys::tetra_peek_bits_posoffset(s.as_ptr(), s.len(), c.start, c.pos, c.end, offset, num_bits, out.as_mut_ptr(), out.len())
    };
    Refusal::of_status(status)?;
    Ok(out[1])
}

/// Writes `value` in `num_bits` bits, 64 at most, and gives the cursor behind them.
pub fn write_bits(s: &mut [u8], c: Cursor, value: u64, num_bits: usize) -> Result<Cursor, Refusal> {
    let mut out = [0u64; 1];
    // Slices go as pointer and count; the call keeps neither and writes only into s and out.
    let status =
        unsafe { sys::tetra_write_bits(s.as_mut_ptr(), s.len(), c.start, c.pos, c.end, value, num_bits, out.as_mut_ptr(), out.len()) };
    Refusal::of_status(status)?;
    Ok(c.at(out[0] as usize))
}
