//! Inputs for the calls on a block: sizes, headers and contents to add, bits from which a walk makes more than one step, damage.
use crate::cases::{self, Rng};
use crate::model;
use crate::ours::Kind;

/// A block's bits: those of a half slot (124), a full slot (268) and the longest (488) more often than others.
pub fn size(g: &mut Rng) -> usize {
    match g.below(8) {
        0 | 1 => 124,
        2 | 3 => 268,
        4 => 488,
        5 => g.below(64) as usize,
        _ => g.below(489) as usize,
    }
}

/// A header for an add: as for any write, and more often than not one that is accepted.
pub fn header(g: &mut Rng) -> Vec<u64> {
    let mut r = cases::record(g, Kind::Resource);
    if g.once_in(6) {
        return r;
    }
    if g.once_in(2) {
        // short, so that a block has room for several
        r[9..].fill(0);
    }
    // the values that are refused, one by one
    let fitting = |v: u64, bits: u32| v & ((1 << bits) - 1);
    let (label, second) = (r[5] == 2, if r[5] == 6 { 6 } else { 10 });
    (r[1], r[2], r[10]) = (fitting(r[1], 1), if label { fitting(r[2], 2) } else { 0 }, fitting(r[10], 4));
    r[5] = if r[5] == 0 { 3 } else { r[5] };
    (r[7], r[8]) = (fitting(r[7], if label { 10 } else { 24 }), fitting(r[8], second));
    if r[13] == 1 {
        r[14] = 1 + r[14] % 13;
    }
    if r[15] == 1 {
        (r[18], r[21], r[22]) = (r[18].max(1), fitting(r[21], 12), fitting(r[22], 2));
        (r[23], r[24]) = if r[22] == 0 { (1, fitting(r[24], 2)) } else { (r[23], fitting(r[24], 2)) };
    }
    r
}

/// What to add where so many bits are left: the length's code, the bits of content and the bytes that have them. It has no bits, a few,
/// many, or those that fill an octet or the block, give or take a few; now and then its bytes are too few.
pub fn added(g: &mut Rng, record: &[u64], left: usize) -> (u64, usize, Vec<u8>) {
    let length = if g.once_in(16) { 62 + g.flag() } else { 0 };
    let header = model::header_bits(record);
    let most = [1, 9, 9, 40, 40, 80, 200, 500][g.below(8) as usize];
    let some = g.below(most) as usize;
    let content_bits = match g.below(12) {
        0 => left.saturating_sub(header + g.below(10) as usize),
        1 | 2 => (header + some).div_ceil(8) * 8 - header,
        _ => some,
    };
    let len = content_bits.div_ceil(8) + g.below(3) as usize;
    let len = if g.once_in(40) { len.saturating_sub(2) } else { len };
    (length, content_bits, cases::bytes(g, len))
}

/// Random bits from which a walk makes more than one step: now and then a first half is put in with type 0 and a length that may fit.
pub fn framed(g: &mut Rng, bytes: &mut [u8], n: usize) {
    let mut p = 0;
    while p + 16 <= n {
        let left = ((n - p) / 8) as u64;
        let length = match g.below(12) {
            0 => g.below(64),
            1 => left + g.below(3),
            2 => 62 + g.flag(),
            _ => 2 + g.below(left.min(16)),
        };
        let (flags, address) = (g.below(32), if g.once_in(16) { 0 } else { 1 + g.below(7) });
        let head = ((flags << 9) | ((length % 64) << 3) | address) as u16;
        model::put(bytes, p, &model::bits(&head.to_be_bytes(), 16));
        p += 8 * length as usize;
        if g.once_in(30) {
            return;
        }
    }
}

/// One to three bits turned, or none.
pub fn damage(g: &mut Rng, bytes: &mut [u8], n: usize) {
    if n == 0 || g.once_in(3) {
        return;
    }
    for _ in 0..1 + g.below(3) {
        let at = g.below(n as u64) as usize;
        bytes[at / 8] ^= 0x80 >> (at % 8);
    }
}

/// A bit that is not the one at hand, good or not.
pub fn another_bit(g: &mut Rng, p: usize, n: usize) -> usize {
    match g.below(40) {
        0 => g.below(n as u64 + 1) as usize,
        1 => n + g.below(10) as usize,
        2 => (g.next() >> g.below(64)) as usize,
        _ => p,
    }
}

/// A block's bits that may be none.
pub fn another_size(g: &mut Rng, n: usize) -> usize {
    match g.below(60) {
        0 => n + g.below(40) as usize,
        1 => 485 + g.below(20) as usize,
        2 => (g.next() >> g.below(64)) as usize,
        _ => n,
    }
}
