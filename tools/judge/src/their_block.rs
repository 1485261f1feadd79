//! The calls on a block, as the original has them. It has no blocks: where a PDU ends is document 01's rules (`model`), and inside of a PDU the
//! original reads and writes header, length, content and null PDU itself.
use crate::model::{self, Bounds};
use crate::original;
use crate::ours::Window;
use tetra_core::BitBuffer;
use tetra_core::pdu_parse_error::PduParseErr;
use tetra_pdus::umac::pdus::mac_resource;

/// What the original answers.
pub enum Theirs {
    Done(Vec<u64>),
    /// Its own error or None: the bits are at their end, or a value has no meaning.
    Ended,
    Invalid,
    /// It panics, with this message.
    Panics(String),
    /// A window that its setters do not take.
    NoWindow,
    /// A rule of document 01 for blocks refuses it: the number and the bit.
    Rule(u8, usize),
}

/// A call on a block: its bytes, a window whose pos is the call's bit and whose end the block's bits, and the numbers of an add.
#[derive(Clone, Copy)]
pub struct OnBlock<'a> {
    pub bytes: &'a [u8],
    pub window: Window,
    pub numbers: &'a [u64],
}

/// What is added: a case's numbers are the record, the length's code (counted, if it is none), the bits of content and their bytes.
pub struct Add<'a> {
    pub record: &'a [u64],
    pub length: u64,
    pub content_bits: usize,
    pub content: Vec<u8>,
}

impl<'a> Add<'a> {
    pub fn of(numbers: &'a [u64]) -> Self {
        let content = numbers[27..].iter().map(|v| *v as u8).collect();
        let length = if matches!(numbers[25], 62 | 63) { numbers[25] } else { 0 };
        Add { record: &numbers[..25], length, content_bits: numbers[26] as usize, content }
    }

    pub fn numbers(&self) -> Vec<u64> {
        let content = self.content.iter().map(|v| u64::from(*v));
        self.record.iter().copied().chain([self.length, self.content_bits as u64]).chain(content).collect()
    }

    pub fn total(&self) -> usize {
        model::header_bits(self.record).saturating_add(self.content_bits)
    }

    /// Whether the PDU is counted and its octets end inside the block, so that length and fill are the original's.
    pub fn whole_octets(&self, p: usize, n: usize) -> bool {
        self.length == 0 && self.total().div_ceil(8).saturating_mul(8).saturating_add(p) <= n
    }
}

/// A step: the header inside its PDU, read by the original, and the content behind it. The words are content start and end, and the record.
pub fn theirs_step(c: OnBlock, b: &mut BitBuffer) -> Theirs {
    let (p, n) = (c.window.pos, c.window.end);
    if n > model::MOST_BITS {
        return Theirs::Rule(13, 0);
    }
    let block = model::bits(c.bytes, n);
    let end = match model::bounds(&block, p) {
        Bounds::End => return Theirs::Done(vec![]),
        Bounds::Unsized(8, bit) => return Theirs::Rule(8, bit),
        // The original has its own word on a type that is not 0.
        _ => model::extent(&block, p),
    };
    b.set_raw_end(end);
    b.set_raw_start(p);
    let h = match mac_resource::MacResource::from_bitbuf(b) {
        Ok(h) => h,
        Err(PduParseErr::BufferEnded { .. }) => return Theirs::Ended,
        Err(_) => return Theirs::Invalid,
    };
    if h.is_null_pdu() {
        return Theirs::Done(vec![]);
    }
    let header_end = b.get_raw_pos();
    match model::content_end(&block, header_end, end, h.fill_bits) {
        Some(content_end) => Theirs::Done([vec![header_end as u64, content_end as u64], original::resource_words(&h).to_vec()].concat()),
        None => Theirs::Rule(12, header_end - p),
    }
}

/// An add: length and fill of `update_len_and_fill_ind`, the header, the content copied, a 1 and zeros. Only where the PDU takes the rest
/// of the block, by a mark or because its octets would end behind it, the fill is the rule's: "the PDU's end less header and content".
pub fn theirs_add(c: OnBlock, b: &mut BitBuffer) -> Theirs {
    let (p, n, a) = (c.window.pos, c.window.end, Add::of(c.numbers));
    if !model::writable(c.bytes.len(), n, p) || a.content_bits > 8 * a.content.len() {
        return Theirs::Rule(13, 0);
    }
    if a.total() > model::MOST_BITS {
        return Theirs::Rule(8, 0);
    }
    if a.record[5] == 0 {
        return Theirs::Rule(9, 0);
    }
    let mut h = original::resource(a.record);
    let mut fill = h.update_len_and_fill_ind(a.content_bits);
    if a.length != 0 {
        h.length_ind = a.length as u8;
    }
    if !a.whole_octets(p, n) {
        fill = (n - p).saturating_sub(a.total());
        h.fill_bits = fill != 0;
    }
    h.to_bitbuf(b);
    b.copy_bits(&mut BitBuffer::from_bytes(&a.content), a.content_bits);
    put_fill(b, fill);
    Theirs::Done(vec![])
}

pub fn theirs_finish(c: OnBlock, b: &mut BitBuffer) -> Theirs {
    if !model::writable(c.bytes.len(), c.window.end, c.window.pos) {
        return Theirs::Rule(13, 0);
    }
    if b.get_len_remaining() >= 16 {
        mac_resource::MacResource::null_pdu().to_bitbuf(b);
    }
    let left = b.get_len_remaining();
    put_fill(b, left);
    Theirs::Done(vec![])
}

/// "a 1 then zeros".
pub fn put_fill(b: &mut BitBuffer, fill: usize) {
    if fill > 0 {
        b.write_bit(1);
        b.write_zeroes(fill - 1);
    }
}
