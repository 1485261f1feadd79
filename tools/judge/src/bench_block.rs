//! Whole blocks in the benchmark: a walk to the end, and adds with a finish, of blocks of one, three and many PDUs.
//!
//! The original has no blocks. Beside a walk of this port stands a loop over the original that does the same work: it peeks at type, length
//! and address type, sets the window to the PDU, reads the header there and looks for the last 1 of the fill from the end, 64 bits at a
//! time. Beside adds and a finish: `update_len_and_fill_ind`, the header, the content copied and the fill, for each PDU, then the null PDU
//! and fill.
use crate::bench::{Operation, calls};
use crate::their_block::put_fill;
use crate::model;
use crate::original;
use std::hint::black_box;
use tetra_core::BitBuffer;
use tetra_mac::sys;
use tetra_pdus::umac::pdus::mac_resource::MacResource;

/// A block to write, and to walk when it is written: PDUs with one header and as many bits of content each.
#[derive(Clone)]
struct Block {
    bits: usize,
    pdus: usize,
    record: Vec<u64>,
    content_bits: usize,
    content: Vec<u8>,
}

impl Block {
    /// So many PDUs of so many octets each, to an SSI if that is one, and to an event label else.
    fn of(bits: usize, pdus: usize, octets: usize) -> Self {
        let mut record = vec![0; 25];
        (record[5], record[7]) = if pdus == 1 { (1, 77) } else { (2, 77) };
        // five bits of fill, or as many as there is room for, so that there is fill to write and to find
        let content_bits = (8 * octets - model::header_bits(&record)).saturating_sub(5);
        let content = (0..62u8).map(|i| i.wrapping_mul(37)).collect();
        Block { bits, pdus, record, content_bits, content }
    }

    fn name(&self, what: &str) -> String {
        let plural = if self.pdus == 1 { "" } else { "s" };
        format!("{what} {} bits, {} PDU{plural}", self.bits, self.pdus)
    }

    /// Adds and a finish. Gives the last status, 0 if all is well.
    fn write(&self, s: &mut [u8]) -> u64 {
        let (mut out, mut status) = ([0u64], 0);
        let (record, content, n) = (&self.record, &self.content, self.bits);
        for _ in 0..self.pdus {
            status |= unsafe {
                let (from, len, bits) = (content.as_ptr(), content.len(), self.content_bits);
                let bit = out[0] as usize;
                sys::tetra_block_add(s.as_mut_ptr(), s.len(), n, bit, record.as_ptr(), 25, 0, from, len, bits, out.as_mut_ptr(), 1)
            };
        }
        status | unsafe { sys::tetra_block_finish(s.as_mut_ptr(), s.len(), n, out[0] as usize, out.as_mut_ptr(), 1) }
    }

    /// The same by the original, which leaves the PDUs that it wrote in its buffer.
    fn write_original(&self, h: &mut MacResource, content: &mut BitBuffer, b: &mut BitBuffer) {
        b.set_raw_pos(0);
        for _ in 0..self.pdus {
            let fill = h.update_len_and_fill_ind(self.content_bits);
            h.to_bitbuf(b);
            content.set_raw_pos(0);
            b.copy_bits(content, self.content_bits);
            put_fill(b, fill);
        }
        if b.get_len_remaining() >= 16 {
            MacResource::null_pdu().to_bitbuf(b);
        }
        let left = b.get_len_remaining();
        put_fill(b, left);
    }
}

/// All steps to the end, each into the same words. Gives how many PDUs there are.
fn walk(s: &[u8], n: usize, out: &mut sys::StepOut) -> usize {
    let (mut bit, mut count) = (0, 0);
    loop {
        unsafe { sys::tetra_block_step(s.as_ptr(), s.len(), n, bit, out.as_mut_ptr(), 33) };
        black_box(&mut *out);
        count += usize::from(out[0] != 0);
        if out[2] == 0 {
            return count;
        }
        bit = out[3] as usize;
    }
}

/// The content's end: the last 1 from the cursor to the window's end.
fn content_end(b: &BitBuffer) -> Option<usize> {
    let (from, start, mut end) = (b.get_raw_pos(), b.get_raw_start(), b.get_raw_end());
    while from < end {
        let k = (end - from).min(64);
        let x = b.peek_bits_startoffset(end - k - start, k)?;
        if x != 0 {
            return Some(end - 1 - x.trailing_zeros() as usize);
        }
        end -= k;
    }
    None
}

/// The same by the original.
fn walk_original(b: &mut BitBuffer, n: usize) -> usize {
    b.set_raw_start(0);
    b.set_raw_pos(0);
    let (mut p, mut count) = (0, 0);
    loop {
        b.set_raw_end(n);
        b.set_raw_pos(p);
        b.set_raw_start(p);
        let Some(head) = b.peek_bits(16) else { return count };
        count += 1;
        let (length, counted) = (head >> 3 & 63, 8 * (head >> 3 & 63) as usize);
        let over = length < 62 && (length < 2 || p + counted >= n + 8);
        if head >> 14 != 0 || (head & 7 != 0 && over) {
            return count;
        }
        let end = if length > 61 { n } else { n.min(p + counted) };
        b.set_raw_end(if head & 7 == 0 { p + 16 } else { end });
        let header = black_box(MacResource::from_bitbuf(b));
        let filled = header.as_ref().is_ok_and(|h| h.fill_bits);
        black_box(if filled { content_end(b) } else { Some(end) });
        if header.is_ok_and(|h| h.is_null_pdu()) {
            return count;
        }
        p = end;
    }
}

fn written(v: Block) -> Operation {
    let mut b = BitBuffer::new(v.bits);
    let mut content = BitBuffer::from_bytes(&v.content);
    let mut h = original::resource(&v.record);
    let mut s = vec![0; v.bits.div_ceil(8)];
    let also = v.clone();
    Operation {
        name: v.name("write"),
        theirs: calls(move || also.write_original(black_box(&mut h), &mut content, black_box(&mut b))),
        ours: calls(move || assert_eq!(black_box(v.write(black_box(&mut s))), 0)),
    }
}

fn walked(v: Block) -> Operation {
    let mut s = vec![0; v.bits.div_ceil(8)];
    assert_eq!(v.write(&mut s), 0);
    let mut b = BitBuffer::from_bytes(&s);
    let n = v.bits;
    let mut out: sys::StepOut = [0; 33];
    let count = walk(&s, n, &mut out);
    Operation {
        name: v.name("walk"),
        theirs: calls(move || assert_eq!(black_box(walk_original(black_box(&mut b), n)), count)),
        ours: calls(move || assert_eq!(black_box(walk(black_box(&s), n, &mut out)), count)),
    }
}

/// Both sides leave the same bytes, so that it is the same work.
fn same_bytes(v: &Block) {
    let mut s = vec![0; v.bits.div_ceil(8)];
    v.write(&mut s);
    let mut b = BitBuffer::new(v.bits);
    v.write_original(&mut original::resource(&v.record), &mut BitBuffer::from_bytes(&v.content), &mut b);
    assert_eq!(b.into_bytes(), s);
}

/// The PDUs have whole octets, so that the fill of `update_len_and_fill_ind` is the block's.
pub fn operations() -> Vec<Operation> {
    let sizes = [(124, 1, 15), (124, 3, 5), (268, 1, 33), (268, 3, 11), (268, 8, 4), (488, 1, 61), (488, 3, 20), (488, 15, 4)];
    let blocks: Vec<Block> = sizes.into_iter().map(|(bits, pdus, octets)| Block::of(bits, pdus, octets)).collect();
    blocks.iter().for_each(same_bytes);
    blocks.into_iter().flat_map(|v| [walked(v.clone()), written(v)]).collect()
}
