//! Inputs: windows over bytes, records, damaged copies of good headers.
use crate::original;
use crate::ours::{Kind, Window};

/// SplitMix64: the same inputs for the same seed.
pub struct Rng(pub u64);

impl Rng {
    pub fn next(&mut self) -> u64 {
        self.0 = self.0.wrapping_add(0x9e3779b97f4a7c15);
        let mut z = self.0;
        z = (z ^ (z >> 30)).wrapping_mul(0xbf58476d1ce4e5b9);
        z = (z ^ (z >> 27)).wrapping_mul(0x94d049bb133111eb);
        z ^ (z >> 31)
    }

    pub fn below(&mut self, n: u64) -> u64 {
        self.next() % n
    }

    pub fn flag(&mut self) -> u64 {
        self.next() & 1
    }

    pub fn once_in(&mut self, n: u64) -> bool {
        self.below(n) == 0
    }

    /// A number of `bits` bits, often at its limits, and once in 16 one that is too wide.
    pub fn field(&mut self, bits: u32, most: u64) -> u64 {
        let top = (1u64 << bits) - 1;
        match self.below(16) {
            0 => 0,
            1 => 1,
            2 => top,
            3 => (top + 1 + self.below(3)).min(most),
            4 if self.once_in(4) => most,
            _ => self.next() & top,
        }
    }
}

/// A window inside `bytes` bytes.
pub fn window(g: &mut Rng, bytes: usize) -> Window {
    let bits = 8 * bytes as u64 + 1;
    let mut x = [g.below(bits), g.below(bits), g.below(bits)];
    x.sort();
    if g.once_in(2) {
        x[2] = bits - 1;
    }
    if g.once_in(2) {
        x[0] = 0;
    }
    Window { start: x[0] as usize, pos: x[1] as usize, end: x[2] as usize }
}

pub fn bytes(g: &mut Rng, n: usize) -> Vec<u8> {
    let filled = g.below(8);
    (0..n)
        .map(|_| match filled {
            0 => 0,
            1 => 255,
            _ => g.next() as u8,
        })
        .collect()
}

fn grant(g: &mut Rng) -> [u64; 3] {
    let kind = g.below(4);
    let count = if g.once_in(3) { g.below(18) } else { 1 + g.below(13) };
    [g.below(16), kind, if kind == 1 { if g.once_in(40) { g.below(256) } else { count } } else { 0 }]
}

fn channel(g: &mut Rng) -> [u64; 9] {
    let pattern = if g.once_in(2) { 0 } else { g.field(2, 255) };
    let present = if pattern == 0 && !g.once_in(8) { 1 } else { g.flag() };
    let direction = if g.once_in(12) { 0 } else { 1 + g.below(3) };
    [g.below(4), g.below(16), direction, g.flag(), g.flag(), g.field(12, 65535), pattern, present, if present == 1 { g.field(2, 255) } else { 0 }]
}

fn resource(g: &mut Rng) -> [u64; 25] {
    let mut r = [0u64; 25];
    let null = g.once_in(10);
    let quiet = g.once_in(2);
    r[0] = if null && !g.once_in(4) { 0 } else { g.flag() };
    r[1] = if (null && !g.once_in(4)) || quiet { g.below(2) * (!null as u64) } else { g.field(1, 255) };
    r[2] = if g.once_in(4) { g.field(2, 255) } else { 0 };
    r[3] = if null && !g.once_in(4) { 0 } else { g.flag() };
    r[4] = if g.once_in(20) { 0 } else { g.field(6, 255) };
    r[5] = if null { 0 } else { 1 + g.below(7) };
    let has_ssi = matches!(r[5], 1 | 5 | 6);
    r[6] = if has_ssi { g.below(3) } else { 0 };
    r[7] = match r[5] {
        0 => 0,
        2 => g.field(10, 65535),
        _ => g.field(24, u32::MAX as u64),
    };
    r[8] = match r[5] {
        5 | 7 => g.field(10, 65535),
        6 => g.field(6, 255),
        _ => 0,
    };
    r[9] = g.flag();
    r[10] = if r[9] == 1 { g.field(4, 255) } else { 0 };
    r[11] = g.flag();
    if r[11] == 1 {
        r[12..15].copy_from_slice(&grant(g));
    }
    r[15] = g.flag();
    if r[15] == 1 {
        r[16..25].copy_from_slice(&channel(g));
    }
    r
}

fn usage(g: &mut Rng) -> (u64, u64) {
    let kind = if g.once_in(2) { 4 } else { g.below(5) };
    (kind, if kind == 4 { if g.once_in(4) { g.below(70) } else { 4 + g.below(60) } } else { 0 })
}

fn assign(g: &mut Rng) -> [u64; 5] {
    let h = g.below(4);
    let field = (g.below(4), g.below(16));
    let one = if h == 0 { (g.below(4), g.below(16)) } else { usage(g) };
    let two = if h == 3 { usage(g) } else { field };
    [h, one.0, one.1, two.0, two.1]
}

fn uplink(g: &mut Rng, least_option: u64, length_bits: u32) -> [u64; 8] {
    let t = g.below(4);
    let number = if t == 1 { g.field(10, 65535) } else { g.field(24, u32::MAX as u64) };
    let option = least_option + g.below(3 - least_option);
    let (x, y) = match option {
        1 => (g.field(length_bits, 255), 0),
        2 => (g.flag(), g.below(16)),
        _ => (0, 0),
    };
    [g.flag(), if g.once_in(4) { 1 } else { 0 }, t, if t == 0 { g.below(3) } else { 0 }, number, option, x, y]
}

pub fn record(g: &mut Rng, k: Kind) -> Vec<u64> {
    match k {
        Kind::Slotgrant => grant(g).to_vec(),
        Kind::Channel => channel(g).to_vec(),
        Kind::Resource => resource(g).to_vec(),
        Kind::Assign => assign(g).to_vec(),
        Kind::Access => uplink(g, 0, 5).to_vec(),
        Kind::Data => uplink(g, 1, 6).to_vec(),
    }
}

/// Bytes and a window to read a header of a kind from: random, or a good one as the original wrote it, whole, cut or damaged.
pub fn to_read(g: &mut Rng, k: Kind) -> (Vec<u8>, Window) {
    let n = g.below(21) as usize;
    let mut s = bytes(g, n);
    if g.once_in(4) {
        let w = window(g, n);
        return (s, w);
    }
    s.resize(20, g.next() as u8);
    let start = g.below(20) as usize;
    let mut w = Window { start, pos: start, end: 160 };
    if let Some(mut b) = original::buffer(&s, w) {
        let r = record(g, k);
        if let Some(end) = original::caught(|| original::write(k, &mut b, &r)) {
            s = b.into_bytes();
            match g.below(4) {
                0 => w.end = end,
                1 => w.end = start + g.below((end - start + 1) as u64) as usize,
                2 => {
                    let at = start + g.below((end - start).max(1) as u64) as usize;
                    s[at / 8] ^= 0x80 >> (at % 8);
                }
                _ => {}
            }
        }
    }
    (s, w)
}
