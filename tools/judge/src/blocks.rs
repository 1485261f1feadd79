//! Calls on random blocks: written by runs of adds and finishes, damaged or not, or of random bits, and walked.
use crate::block_cases::{added, another_bit, another_size, damage, framed, header, size};
use crate::case::{Call, Case};
use crate::cases::{self, Rng};
use crate::compare::Counts;
use crate::model::{self, Bounds};
use crate::ours::Window;
use crate::their_block::Add;
use tetra_mac::block::{self, LengthIndication};
use tetra_mac::{MacResource, Record};

/// The header of a record.
pub fn value(record: &[u64]) -> MacResource {
    record.first_chunk().and_then(MacResource::from_words).expect("a record of codes that have a case")
}

/// The length of a code.
pub fn length_of(code: u64) -> LengthIndication {
    match code {
        62 => LengthIndication::SecondSlotStolen,
        63 => LengthIndication::FragStart,
        _ => LengthIndication::Counted,
    }
}

/// A run on the bytes: each call is a case of its own, and is then done through the bindings.
fn run(g: &mut Rng, bytes: &mut [u8], n: usize, c: &mut Counts) {
    let mut p = 0;
    let adds = if g.once_in(4) { g.below(20) } else { g.below(5) };
    for _ in 0..adds {
        let record = header(g);
        let (length, content_bits, content) = added(g, &record, n - p);
        let numbers = Add { record: &record, length, content_bits, content: content.clone() }.numbers();
        let window = Window { start: 0, pos: another_bit(g, p, n), end: another_size(g, n) };
        c.add(Case { call: Call::Add, bytes: bytes.to_vec(), window, numbers });
        p = block::add(bytes, n, p, &value(&record), length_of(length), &content, content_bits).unwrap_or(p);
    }
    let window = Window { start: 0, pos: another_bit(g, p, n), end: another_size(g, n) };
    c.add(Case { call: Call::Finish, bytes: bytes.to_vec(), window, numbers: vec![] });
    if !g.once_in(6) {
        let _ = block::finish(bytes, n, p);
    }
}

fn step(bytes: &[u8], p: usize, n: usize, c: &mut Counts) {
    c.add(Case { call: Call::Step, bytes: bytes.to_vec(), window: Window { start: 0, pos: p, end: n }, numbers: vec![] });
}

/// Every step of the walk by document 01's rules, the one after its end, and now and then one from elsewhere.
fn walk(g: &mut Rng, bytes: &[u8], n: usize, c: &mut Counts) {
    let block = model::bits(bytes, n);
    let mut p = 0;
    while let Bounds::Sized(end) = model::bounds(&block, p) {
        step(bytes, p, n, c);
        p = end;
    }
    step(bytes, p, n, c);
    if g.once_in(4) {
        step(bytes, g.below(n as u64 + 10) as usize, n, c);
        step(bytes, another_bit(g, 0, n), another_size(g, n), c);
    }
}

/// So many blocks.
pub fn all(g: &mut Rng, blocks: u64, c: &mut Counts) {
    for _ in 0..blocks {
        let n = size(g);
        let spare = g.below(4) as usize;
        let mut bytes = cases::bytes(g, n.div_ceil(8) + spare);
        match g.below(8) {
            0 => {}
            1 | 2 => framed(g, &mut bytes, n),
            _ => {
                run(g, &mut bytes, n, c);
                damage(g, &mut bytes, n);
            }
        }
        walk(g, &bytes, n, c);
    }
}
