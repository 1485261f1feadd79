//! Cases of the bit buffer's calls: every window of a few bytes with the places and counts around its limits and far off, and random ones.
use crate::bit_calls::*;
use crate::cases::{self, Rng};
use crate::ours::Window;

pub type Visit<'a> = &'a mut dyn FnMut(BitCase);

const FAR: [u64; 3] = [u64::MAX, u64::MAX - 7, 1 << 32];

fn put(visit: Visit, call: u8, bytes: &[u8], window: Window, numbers: &[u64]) {
    visit(BitCase { call, bytes: bytes.to_vec(), window, numbers: numbers.to_vec() });
}

/// Places and counts around the limits of a window, and far off.
fn places(w: Window) -> Vec<u64> {
    let (start, pos, end) = (w.start as u64, w.pos as u64, w.end as u64);
    let near = [0, 1, start, pos, end, end + 1, end.wrapping_sub(start), end.wrapping_sub(pos), end.wrapping_sub(pos).wrapping_add(1)];
    let back = [start.wrapping_neg(), start.wrapping_neg().wrapping_sub(1)];
    let mut all = [&near[..], &back, &FAR].concat();
    all.sort();
    all.dedup();
    all
}

/// Bytes of the other buffer of a call of two, behind or before those of the window's.
fn of_two(g: &mut Rng, visit: Visit, s: &[u8], w: Window) {
    let left = w.end.saturating_sub(w.pos).min(24);
    for room in [0, 1, left / 8, left.div_ceil(8)] {
        let both = [s.to_vec(), cases::bytes(g, room)].concat();
        for n in [0, left as u64, left as u64 + 1, 8 * room as u64, u64::MAX, u64::MAX - 6, u64::MAX - 7] {
            put(visit, READ_INTO_SLICE, &both, w, &[s.len() as u64, n]);
        }
    }
    for room in [0, 1, left, left + 1] {
        let both = [s.to_vec(), cases::bytes(g, room)].concat();
        put(visit, TO_BITARR, &both, w, &[s.len() as u64]);
        let mut bits: Vec<u8> = (0..room).map(|_| g.flag() as u8).collect();
        put(visit, FROM_BITARR, &[bits.clone(), s.to_vec()].concat(), w, &[room as u64]);
        if room > 0 {
            bits[g.below(room as u64) as usize] = 2 + g.below(254) as u8;
            put(visit, FROM_BITARR, &[bits, s.to_vec()].concat(), w, &[room as u64]);
        }
    }
    let whole = w.end.saturating_sub(w.start).min(24);
    for room in [whole.saturating_sub(1), whole, whole + 1, whole + 9] {
        put(visit, INTO_BITVEC, &[s.to_vec(), cases::bytes(g, room)].concat(), w, &[s.len() as u64]);
    }
    for most in [left, left + 1] {
        let k = g.below(4) as usize;
        let from = cases::bytes(g, k);
        let v = cases::window(g, k);
        let source = [v.start as u64, v.pos as u64, v.end as u64];
        for n in [0, most.min(v.end - v.pos), v.end - v.pos + 1] {
            put(visit, COPY_BITS, &[from.clone(), s.to_vec()].concat(), w, &[&[k as u64, n as u64], &source[..]].concat());
        }
    }
}

/// The three that are C calls.
fn c_calls(g: &mut Rng, visit: Visit, s: &[u8], w: Window) {
    let left = w.end.saturating_sub(w.pos) as u64;
    let back = |v: usize| (v as u64).wrapping_neg();
    for n in [0, 1, left, left + 1, 65] {
        put(visit, READ_BITS, s, w, &[n]);
        for offset in [0, 1, left, back(1), back(w.pos - w.start), back(w.pos - w.start + 1), back(w.pos), back(w.pos + 1), back(w.pos + 2)] {
            put(visit, PEEK_POSOFFSET, s, w, &[offset, n]);
        }
        let top = 1u64.checked_shl(n as u32).unwrap_or(0);
        for value in [g.next() & top.wrapping_sub(1), top] {
            put(visit, WRITE_BITS, s, w, &[value, n]);
        }
    }
}

/// Every call on a window.
fn on_window(g: &mut Rng, visit: Visit, s: &[u8], w: Window) {
    for call in BARE {
        put(visit, call, s, w, &[]);
    }
    let places = places(w);
    for call in COUNTED {
        for v in places.iter().filter(|v| !matches!(call, WRITE_ZEROES | WRITE_ONES) || **v < 1 << 16) {
            put(visit, call, s, w, &[*v]);
        }
    }
    let left = w.end.saturating_sub(w.pos) as u64;
    for offset in &places {
        for n in [0, 1, left, 65] {
            put(visit, PEEK_STARTOFFSET, s, w, &[*offset, n]);
        }
    }
    let written = w.pos.saturating_sub(w.start) as u64;
    for offset in [0, written.wrapping_neg(), written.wrapping_neg().wrapping_sub(1), left, left + 1, u64::MAX >> 1, 1 << 63 | 1] {
        put(visit, SEEK_REL, s, w, &[offset]);
    }
    for value in [0, 1, 2, 255] {
        put(visit, WRITE_BIT, s, w, &[value]);
    }
    c_calls(g, visit, s, w);
    of_two(g, visit, s, w);
}

/// Every window of so many bytes.
pub fn windows(g: &mut Rng, visit: Visit, len: usize) {
    for end in 0..=8 * len {
        for pos in 0..=end {
            for start in 0..=pos {
                let s = cases::bytes(g, len);
                on_window(g, visit, &s, Window { start, pos, end });
            }
        }
    }
    for n in (0..=8 * len as u64 + 1).chain([65536, 65537, u64::MAX, u64::MAX - 6]) {
        put(visit, NEW, &vec![0; len], Window { start: 0, pos: 0, end: 0 }, &[n]);
    }
}

/// What the original does in chunks of 64 bits, stopped in the second.
pub fn in_chunks(visit: Visit) {
    let w = Window { start: 0, pos: 0, end: 64 };
    put(visit, TO_BITARR, &[vec![0; 8], vec![2; 65]].concat(), w, &[8]);
    put(visit, WRITE_ZEROES, &[0xff; 8], w, &[65]);
    put(visit, WRITE_ONES, &[0; 8], w, &[65]);
    put(visit, COPY_BITS, &[[0xff; 8], [0; 8]].concat(), w, &[8, 65, 0, 0, 64]);
}

/// Windows that are none, of one byte, and some with far numbers.
pub fn bad_windows(g: &mut Rng, visit: Visit) {
    let places = [0, 1, 7, 8, 9, 65536, 65537, usize::MAX];
    for start in places {
        for pos in places {
            for end in places {
                if start <= pos && pos <= end && end <= 8 {
                    continue;
                }
                let w = Window { start, pos, end };
                let s = cases::bytes(g, 1);
                for call in BARE.into_iter().filter(|call| !(GET_RAW_START..=FROM_BYTES).contains(call)) {
                    put(visit, call, &s, w, &[]);
                }
                for call in COUNTED.into_iter().chain([SEEK_REL, WRITE_BIT]) {
                    put(visit, call, &s, w, &[1]);
                }
                put(visit, PEEK_STARTOFFSET, &s, w, &[0, 1]);
                let two = [s[0], 0];
                put(visit, READ_INTO_SLICE, &two, w, &[1, 1]);
                put(visit, TO_BITARR, &two, w, &[1]);
                put(visit, INTO_BITVEC, &two, w, &[1]);
                put(visit, FROM_BITARR, &[1, s[0]], w, &[1]);
                put(visit, COPY_BITS, &two, w, &[1, 1, 0, 0, 8]);
                let good = Window { start: 0, pos: 0, end: 8 };
                put(visit, COPY_BITS, &two, good, &[1, 1, start as u64, pos as u64, end as u64]);
            }
        }
    }
}

/// A random call on up to 20 bytes, or of two buffers on up to 20 and 100.
pub fn random(g: &mut Rng, visit: Visit) {
    let len = g.below(21) as usize;
    let s = cases::bytes(g, len);
    let w = cases::window(g, len);
    let count = if g.once_in(10) { g.next() >> g.below(64) } else { g.below(8 * len as u64 + 3) };
    let k = len as u64;
    let short = count.min(100) as usize;
    match g.below(12) {
        0 if g.once_in(2) => put(visit, BARE[g.below(9) as usize], &s, w, &[]),
        0 => {
            let n = g.below(67);
            put(visit, READ_BITS, &s, w, &[n]);
            put(visit, PEEK_POSOFFSET, &s, w, &[count.wrapping_sub(g.below(8 * k + 1)).max(1), n]);
            put(visit, WRITE_BITS, &s, w, &[g.next() >> (64 - n.clamp(1, 64)), n]);
        }
        1 | 2 => {
            let call = COUNTED[g.below(7) as usize];
            put(visit, call, &s, w, &[if matches!(call, WRITE_ZEROES | WRITE_ONES) { count.min(1 << 20) } else { count }]);
        }
        3 => put(visit, PEEK_STARTOFFSET, &s, w, &[count, g.below(67)]),
        4 => put(visit, SEEK_REL, &s, w, &[count.wrapping_sub(g.below(8 * k + 1)).max(1)]),
        5 => put(visit, WRITE_BIT, &s, w, &[g.below(3)]),
        6 => {
            let room = g.below(21) as usize;
            put(visit, READ_INTO_SLICE, &[s, cases::bytes(g, room)].concat(), w, &[k, count]);
        }
        7 => put(visit, TO_BITARR, &[s, cases::bytes(g, short)].concat(), w, &[k]),
        8 => {
            let bits: Vec<u8> = (0..short).map(|_| if g.once_in(400) { 3 } else { g.flag() as u8 }).collect();
            put(visit, FROM_BITARR, &[bits, s].concat(), w, &[short as u64]);
        }
        9 => {
            let room = (w.end - w.start + g.below(4) as usize).saturating_sub(1).min(100);
            put(visit, INTO_BITVEC, &[s, cases::bytes(g, room)].concat(), w, &[k]);
        }
        _ => {
            let from_len = g.below(21) as usize;
            let from = cases::bytes(g, from_len);
            let v = cases::window(g, from_len);
            let n = if g.once_in(4) { count.min(1 << 20) } else { g.below((v.end - v.pos).min(w.end - w.pos) as u64 + 1) };
            put(visit, COPY_BITS, &[from, s].concat(), w, &[from_len as u64, n, v.start as u64, v.pos as u64, v.end as u64]);
        }
    }
}
