//! Values as records of words, and the calls that take or give them.
use crate::sys::{self, Out};
use crate::{Cursor, Refusal};

/// A value as the words of its record; `bindings/c/tetra_mac.h` says what they are.
pub trait Record<const WORDS: usize>: Sized {
    /// The words of a value.
    fn to_words(&self) -> [u64; WORDS];

    /// The value of words, or None where a code has no case or a number is over its type.
    fn from_words(words: &[u64; WORDS]) -> Option<Self>;
}

/// The record behind the cursor's word.
pub(crate) fn taken<T: Record<N>, const N: usize>(out: &Out) -> Result<T, Refusal> {
    let words = out.get(1..).and_then(|w| w.first_chunk::<N>());
    words.and_then(T::from_words).ok_or(Refusal::malformed())
}

pub(crate) fn read<T: Record<N>, const N: usize>(call: sys::Read, s: &[u8], c: Cursor) -> Result<(T, Cursor), Refusal> {
    let mut out: Out = [0; 26];
    // Slices go as pointer and count; the call keeps neither and writes only into out.
    let status = unsafe { call(s.as_ptr(), s.len(), c.start, c.pos, c.end, out.as_mut_ptr(), out.len()) };
    Refusal::of_status(status)?;
    Ok((taken(&out)?, c.at(out[0] as usize)))
}

pub(crate) fn write<T: Record<N>, const N: usize>(call: sys::Write, value: &T, s: &mut [u8], c: Cursor) -> Result<Cursor, Refusal> {
    let mut out = [0u64; 1];
    let words = value.to_words();
    // Slices go as pointer and count; the call keeps none and writes only into s and out.
    let status = unsafe { call(s.as_mut_ptr(), s.len(), c.start, c.pos, c.end, words.as_ptr(), words.len(), out.as_mut_ptr(), out.len()) };
    Refusal::of_status(status)?;
    Ok(c.at(out[0] as usize))
}

pub(crate) fn length<T: Record<N>, const N: usize>(call: sys::Length, value: &T) -> Result<usize, Refusal> {
    let mut out = [0u64; 1];
    let words = value.to_words();
    // Slices go as pointer and count; the call keeps neither and writes only into out.
    let status = unsafe { call(words.as_ptr(), words.len(), out.as_mut_ptr(), out.len()) };
    Refusal::of_status(status)?;
    Ok(out[0] as usize)
}

/// A number for a field of type u8, if it fits.
pub(crate) fn number8(word: u64) -> Option<u8> {
    u8::try_from(word).ok()
}

/// The same for u16.
pub(crate) fn number16(word: u64) -> Option<u16> {
    u16::try_from(word).ok()
}

/// The same for u32.
pub(crate) fn number32(word: u64) -> Option<u32> {
    u32::try_from(word).ok()
}
