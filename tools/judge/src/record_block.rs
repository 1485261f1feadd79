//! The calls on a block for the list of crates/replay: step, add and finish, 112 to 114. The rules are `model`'s and the header is the original's,
//! as in the live comparison. An add has the content's bytes before the block's, and how many they are as its last number.
use crate::block_cases::{added, another_bit, another_size, damage, framed, header, size};
use crate::cases::{self, Rng};
use crate::kind::{Kind, listed_write};
use crate::model::{self, Bounds};
use crate::original;
use crate::ours::Window;
use crate::record::List;
use crate::their_block::{Add, OnBlock, Theirs, theirs_add, theirs_finish, theirs_step};
use tetra_core::BitBuffer;

const STEP: u8 = 112;
const ADD: u8 = 113;
const FINISH: u8 = 114;

/// What the original and the rules answer, the bit where its cursor stands, and the bytes that it left.
fn answer(c: OnBlock, f: fn(OnBlock, &mut BitBuffer) -> Theirs) -> (Theirs, usize, Vec<u8>) {
    let Some(mut b) = original::buffer(c.bytes, c.window) else { return (Theirs::NoWindow, c.window.pos, c.bytes.to_vec()) };
    let theirs = original::told(|| Some(f(c, &mut b))).unwrap_or_else(Theirs::Panics);
    (theirs, b.get_raw_pos(), b.into_bytes())
}

/// The bit of a channel allocation's direction, from the PDU's first bit on.
fn direction_at(own: &[bool]) -> usize {
    let address_type = own[13..16].iter().fold(0, |v, b| 2 * v + *b as usize);
    let mut at = 16 + [0, 24, 10, 24, 24, 34, 30, 34][address_type];
    at += if own[at] { 5 } else { 1 };
    at += if own[at] { 9 } else { 1 };
    at + 1 + 6
}

/// The 33 words of a step's entry, where it is not refused 13.
fn entry(c: OnBlock, theirs: &Theirs, cursor: usize) -> Option<Vec<u64>> {
    let (p, n) = (c.window.pos, c.window.end);
    let block = model::bits(c.bytes, n);
    let end = model::extent(&block, p);
    let mut words = vec![0; 33];
    let mut refused = |number: u64, bit: usize, ends: bool| {
        words[..8].copy_from_slice(&[3, p as u64, ends as u64, if ends { end as u64 } else { 0 }, 0, 0, number, bit as u64]);
    };
    match theirs {
        Theirs::Done(v) if v.is_empty() => {
            if model::bounds(&block, p) == Bounds::Null {
                words[..2].copy_from_slice(&[2, p as u64]);
            }
        }
        Theirs::Done(v) => {
            words[..6].copy_from_slice(&[1, p as u64, 1, end as u64, v[0], v[1]]);
            words[8..].copy_from_slice(&v[2..]);
        }
        Theirs::Ended => refused(1, cursor - p, true),
        Theirs::Rule(12, bit) => refused(12, *bit, true),
        Theirs::Rule(8, bit) => refused(8, *bit, false),
        Theirs::Panics(_) if model::bounds(&block, p) == Bounds::Unsized(4, 0) => refused(4, 0, false),
        Theirs::Panics(why) if why.contains("Extended") => refused(5, cursor - 1 - p, true),
        Theirs::Panics(why) if why.contains("Augmented") => refused(6, direction_at(&block[p..]), true),
        _ => return None,
    }
    Some(words)
}

fn step(l: &mut List, bytes: &[u8], p: usize, n: usize) {
    let c = OnBlock { bytes, window: Window { start: 0, pos: p, end: n }, numbers: &[] };
    let (theirs, cursor, _) = answer(c, theirs_step);
    match theirs {
        Theirs::NoWindow | Theirs::Rule(13, _) => l.put_words(STEP, c, 32 + 13, &[], &[]),
        _ => {
            let words = entry(c, &theirs, cursor).expect("an entry, or why there is none");
            l.put_words(STEP, c, 0, &words, &[]);
        }
    }
}

/// A call that writes: the bit after it, which is returned where it is done.
fn write(l: &mut List, call: u8, c: OnBlock, theirs: Theirs, cursor: usize, left: &[u8], listed: Option<u8>) -> Option<usize> {
    let refused = &[c.window.pos as u64];
    match (theirs, listed) {
        (Theirs::Done(_), None) => {
            l.put_words(call, c, 0, &[cursor as u64], left);
            return Some(cursor);
        }
        (Theirs::Done(_), Some(number)) => l.put_words(call, c, 16 + number, refused, &[]),
        (Theirs::NoWindow, _) => l.put_words(call, c, 32 + 13, refused, &[]),
        (Theirs::Rule(number, _), _) => l.put_words(call, c, 32 + number, refused, &[]),
        _ => l.put_words(call, c, 1, refused, &[]),
    }
    None
}

fn add(l: &mut List, bytes: &[u8], window: Window, a: &Add) -> Option<(usize, Vec<u8>)> {
    let numbers = a.numbers();
    let c = OnBlock { bytes, window, numbers: &numbers };
    let (theirs, cursor, left) = answer(c, theirs_add);
    let both = [&a.content[..], bytes].concat();
    let given = [a.record, &[a.length, a.content_bits as u64, a.content.len() as u64]].concat();
    let listed = listed_write(Kind::Resource, a.record).map(|d| d.1);
    let recorded = OnBlock { bytes: &both, window, numbers: &given };
    let bit = write(l, ADD, recorded, theirs, cursor, &[&a.content[..], &left].concat(), listed)?;
    Some((bit, left))
}

fn finish(l: &mut List, bytes: &[u8], p: usize, n: usize) -> Option<Vec<u8>> {
    let c = OnBlock { bytes, window: Window { start: 0, pos: p, end: n }, numbers: &[] };
    let (theirs, cursor, left) = answer(c, theirs_finish);
    write(l, FINISH, c, theirs, cursor, &left, None).map(|_| left)
}

/// A step at each PDU of the rules' walk, where it ends, and behind the block.
fn walk(l: &mut List, bytes: &[u8], n: usize) {
    let (all, rest) = model::walk(&model::bits(bytes, n));
    all.into_iter().chain([rest, n, n + 1]).for_each(|p| step(l, bytes, p, n));
}

/// A block by a run of adds and a finish, walked as it is and damaged.
fn run(l: &mut List, g: &mut Rng) {
    let n = size(g).min(300);
    let mut bytes = cases::bytes(g, n.div_ceil(8));
    let mut p = 0;
    for _ in 0..g.below(5) {
        let record = header(g);
        let (length, content_bits, content) = added(g, &record, n - p);
        let a = Add { record: &record, length, content_bits, content };
        if a.content.len() + bytes.len() > 128 {
            continue;
        }
        let window = Window { start: 0, pos: another_bit(g, p, n), end: another_size(g, n) };
        add(l, &bytes, window, &a);
        if let Some((bit, left)) = add(l, &bytes, Window { start: 0, pos: p, end: n }, &a) {
            (p, bytes) = (bit, left);
        }
    }
    if let Some(left) = finish(l, &bytes, p, n) {
        bytes = left;
    }
    walk(l, &bytes, n);
    damage(g, &mut bytes, n);
    walk(l, &bytes, n);
}

/// Every length in blocks of a few sizes, with and without fill; a finish at every octet of a few.
fn in_turn(l: &mut List) {
    for n in [0, 15, 16, 17, 23, 24, 31, 32, 100, 124, 268, 488] {
        for length in 0..64usize {
            let (fill, address) = (length & 1, (length + n) % 8);
            let mut bytes: Vec<u8> = (0..n.max(16).div_ceil(8)).map(|i| ((i + length) * 37 + n) as u8).collect();
            model::put(&mut bytes, 0, &model::bits(&((fill << 13 | length << 3 | address) as u16).to_be_bytes(), 16));
            if n < 100 || length % 4 == n % 4 || [n / 8, n / 8 + 1].contains(&length) {
                step(l, &bytes, 0, n);
            }
        }
        let bytes = vec![0xa5; n.div_ceil(8)];
        for p in (0..=n).step_by(8).filter(|p| n < 130 || n - p < 40).chain([n, n + 1, n.saturating_sub(1)]) {
            finish(l, &bytes, p, n);
        }
    }
}

pub fn all(l: &mut List, g: &mut Rng, runs: u64) {
    in_turn(l);
    for _ in 0..runs {
        run(l, g);
        let n = 100 + g.below(60) as usize;
        let mut bytes = cases::bytes(g, n.div_ceil(8));
        framed(g, &mut bytes, n);
        walk(l, &bytes, n);
    }
}
