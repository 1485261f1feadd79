//! The calls on a block, as this port has them: through C and through its Rust bindings, which must say the same. The original's side is
//! `their_block`.
use crate::blocks;
use crate::case::{Case, Ours};
use crate::model::{self, Bounds};
use crate::ours::Refusal;
use crate::their_block::Add;
use tetra_mac::block::{self, BlockEntry};
use tetra_mac::{MacResource, Record, sys};

/// The words of a step's entry as the C interface gives them.
fn words(entry: Option<BlockEntry>) -> sys::StepOut {
    let mut w = [0; 33];
    match entry {
        None => {}
        Some(BlockEntry::Null(bit)) => [w[0], w[1]] = [2, bit as u64],
        Some(BlockEntry::Refused(e)) => {
            [w[0], w[1], w[2], w[3]] = [3, e.bit as u64, e.end.is_some() as u64, e.end.unwrap_or(0) as u64];
            [w[6], w[7]] = [e.refusal.number.into(), e.refusal.offset as u64];
        }
        Some(BlockEntry::Resource(e)) => {
            [w[0], w[1], w[2], w[3]] = [1, e.bit as u64, 1, e.end as u64];
            [w[4], w[5]] = [e.content_start as u64, e.content_end as u64];
            w[8..].copy_from_slice(&e.header.to_words());
        }
    }
    w
}

/// A step through the bindings, if the C call says the same word for word; a refused one must leave out as it was.
fn step(s: &[u8], n: usize, p: usize) -> Option<Result<Option<BlockEntry>, Refusal>> {
    let mut out: sys::StepOut = [0xa5a5; 33];
    let status = unsafe { sys::tetra_block_step(s.as_ptr(), s.len(), n, p, out.as_mut_ptr(), out.len()) };
    let entry = block::step(s, n, p);
    let same = match entry {
        Ok(entry) => status == 0 && out == words(entry),
        Err(r) => Refusal::of_status(status) == Err(r) && out == [0xa5a5; 33],
    };
    same.then_some(entry)
}

/// A step: the cursor behind the header, and the words that `theirs_step` gives, or why the PDU is refused; None where its place is not the
/// rules'.
pub fn ours_step(c: &Case) -> Option<Ours> {
    let (p, n) = (c.window.pos, c.window.end);
    let entry = match step(&c.bytes, n, p)? {
        Ok(entry) => entry,
        Err(r) => return Some(Err(r)),
    };
    match (model::bounds(&model::bits(&c.bytes, n), p), entry) {
        (Bounds::End, None) => Some(Ok((p, vec![]))),
        (Bounds::Null, Some(BlockEntry::Null(bit))) if bit == p => Some(Ok((p + 16, vec![]))),
        (Bounds::Unsized(..), Some(BlockEntry::Refused(e))) if (e.bit, e.end) == (p, None) => Some(Err(e.refusal)),
        (Bounds::Sized(end), Some(BlockEntry::Refused(e))) if (e.bit, e.end) == (p, Some(end)) => Some(Err(e.refusal)),
        (Bounds::Sized(end), Some(BlockEntry::Resource(e))) if (e.bit, e.end) == (p, end) => {
            let content = vec![e.content_start as u64, e.content_end as u64];
            Some(Ok((e.content_start, [content, e.header.to_words().to_vec()].concat())))
        }
        _ => None,
    }
}

/// The bit after a call that writes, if C and bindings say the same and leave the same bytes; a refused C call gives the bit that it got.
fn written(
    s: &mut [u8],
    p: usize,
    bound: Result<usize, Refusal>,
    call: impl FnOnce(&mut [u8], &mut [u64; 1]) -> u64,
    was: &[u8],
) -> Option<Ours> {
    let mut t = was.to_vec();
    let mut out = [0xa5a5];
    let status = call(&mut t, &mut out);
    let raw = Refusal::of_status(status).map(|()| out[0] as usize);
    (raw == bound && t == s && (raw.is_ok() || out[0] == p as u64)).then_some(bound.map(|bit| (bit, vec![])))
}

pub fn ours_add(c: &Case, s: &mut [u8]) -> Option<Ours> {
    let (p, n, a) = (c.window.pos, c.window.end, Add::of(&c.numbers));
    let header = MacResource::from_words(a.record.first_chunk()?)?;
    let bound = block::add(s, n, p, &header, blocks::length_of(a.length), &a.content, a.content_bits);
    let (record, content) = (a.record, &a.content);
    let call = |t: &mut [u8], out: &mut [u64; 1]| unsafe {
        let (from, from_len, bits) = (content.as_ptr(), content.len(), a.content_bits);
        sys::tetra_block_add(t.as_mut_ptr(), t.len(), n, p, record.as_ptr(), 25, a.length, from, from_len, bits, out.as_mut_ptr(), 1)
    };
    written(s, p, bound, call, &c.bytes)
}

pub fn ours_finish(c: &Case, s: &mut [u8]) -> Option<Ours> {
    let (p, n) = (c.window.pos, c.window.end);
    let bound = block::finish(s, n, p);
    let call = |t: &mut [u8], out: &mut [u64; 1]| unsafe { sys::tetra_block_finish(t.as_mut_ptr(), t.len(), n, p, out.as_mut_ptr(), 1) };
    written(s, p, bound, call, &c.bytes)
}

/// Whether a refused add fits the original's panic. It asks a channel allocation for its length first, and so meets the augmented direction
/// before anything else.
pub fn added_reason(why: &str, number: u8) -> bool {
    let before_6 = matches!(
        number,
        Refusal::VALUE_TOO_WIDE | Refusal::AUGMENTED | Refusal::ENCRYPTED_ADDRESS | Refusal::NO_FRAME_18_PATTERN | Refusal::DELAY_COUNT
    );
    before_6 && why.contains("Augmented")
}
