//! Blocks in turn: every length field in a block of every size, and every content at the start of a block of every size.
use crate::their_block::Add;
use crate::case::{Call, Case};
use crate::model;
use crate::ours::Window;

type Visit<'a> = &'a mut dyn FnMut(Case);

/// The whole of a block of n bits, from bit p on.
fn window(p: usize, n: usize) -> Window {
    Window { start: 0, pos: p, end: n }
}

/// Bytes that differ from one case to the next, for n bits and one byte more.
fn ramp(n: usize, from: usize) -> Vec<u8> {
    (0..n.div_ceil(8) + 1).map(|i| ((i + from) * 37 + from) as u8).collect()
}

/// A step at bit 0 and at bit 24, with each length, without fill and with it; the address type goes round.
fn lengths(visit: Visit) {
    for n in 0..=model::MOST_BITS {
        for length in 0..64 {
            for p in [0, 24] {
                let (fill, address) = (length & 1, (length + n + p) % 8);
                let head = (fill << 13 | length << 3 | address) as u16;
                let mut bytes = ramp(n.max(p + 16), length + n);
                model::put(&mut bytes, p, &model::bits(&head.to_be_bytes(), 16));
                visit(Case { call: Call::Step, bytes, window: window(p, n), numbers: vec![] });
            }
        }
    }
}

/// An add of an SSI or event label with every content that there is room for, and a few bits more; a finish at every octet.
fn contents(visit: Visit) {
    let mut record = vec![0; 25];
    record[7] = 77;
    for n in 0..=model::MOST_BITS {
        record[5] = 1 + n as u64 % 2;
        for content_bits in 0..n.saturating_sub(model::header_bits(&record)) + 3 {
            let length = if (n + content_bits) % 5 == 0 { 62 + n as u64 % 2 } else { 0 };
            let numbers = Add { record: &record, length, content_bits, content: ramp(content_bits, n) }.numbers();
            visit(Case { call: Call::Add, bytes: ramp(n, content_bits), window: window(0, n), numbers });
        }
        for p in (0..=n).step_by(8).chain([n]) {
            visit(Case { call: Call::Finish, bytes: ramp(n, p), window: window(p, n), numbers: vec![] });
        }
    }
}

pub fn all(visit: Visit) {
    lengths(visit);
    contents(visit);
}
