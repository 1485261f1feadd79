//! The calls of the bit buffer, as crates/replay has them; three of them are C calls.
//!
//! What the original does, and by what number this port refuses where the original stops or where docs/DIFFERENCES.md has an entry.
//!
//! A call of two buffers has their bytes one behind the other, and how many are the first's as its first number.
use crate::original::{self, told};
use crate::ours::Window;
use tetra_core::BitBuffer;

pub const READ_BITS: u8 = 32;
pub const PEEK_POSOFFSET: u8 = 33;
pub const WRITE_BITS: u8 = 34;
pub const READ_BIT: u8 = 48;
pub const PEEK_BITS: u8 = 49;
pub const PEEK_STARTOFFSET: u8 = 50;
pub const GET_LEN: u8 = 51;
pub const GET_LEN_REMAINING: u8 = 52;
pub const GET_LEN_WRITTEN: u8 = 53;
pub const GET_POS: u8 = 54;
pub const GET_RAW_START: u8 = 55;
pub const GET_RAW_END: u8 = 56;
pub const GET_RAW_POS: u8 = 57;
pub const NEW: u8 = 58;
pub const FROM_BYTES: u8 = 59;
pub const SEEK: u8 = 60;
pub const SEEK_REL: u8 = 61;
pub const SET_RAW_START: u8 = 62;
pub const SET_RAW_END: u8 = 63;
pub const SET_RAW_POS: u8 = 64;
pub const WRITE_BIT: u8 = 68;
pub const WRITE_ZEROES: u8 = 69;
pub const WRITE_ONES: u8 = 70;
pub const READ_INTO_SLICE: u8 = 72;
pub const TO_BITARR: u8 = 73;
pub const COPY_BITS: u8 = 74;
pub const FROM_BITARR: u8 = 75;
pub const INTO_BITVEC: u8 = 76;

/// Those without numbers, and those with one place or count.
pub const BARE: [u8; 9] =
    [READ_BIT, GET_LEN, GET_LEN_REMAINING, GET_LEN_WRITTEN, GET_POS, GET_RAW_START, GET_RAW_END, GET_RAW_POS, FROM_BYTES];
pub const COUNTED: [u8; 7] = [PEEK_BITS, SEEK, SET_RAW_START, SET_RAW_END, SET_RAW_POS, WRITE_ZEROES, WRITE_ONES];

pub fn name(call: u8) -> &'static str {
    match call {
        READ_BITS => "read_bits",
        PEEK_POSOFFSET => "peek_bits_posoffset",
        WRITE_BITS => "write_bits",
        READ_BIT => "read_bit",
        PEEK_BITS => "peek_bits",
        PEEK_STARTOFFSET => "peek_bits_startoffset",
        GET_LEN => "get_len",
        GET_LEN_REMAINING => "get_len_remaining",
        GET_LEN_WRITTEN => "get_len_written",
        GET_POS => "get_pos",
        GET_RAW_START => "get_raw_start",
        GET_RAW_END => "get_raw_end",
        GET_RAW_POS => "get_raw_pos",
        NEW => "new",
        FROM_BYTES => "from_bytes",
        SEEK => "seek",
        SEEK_REL => "seek_rel",
        SET_RAW_START => "set_raw_start",
        SET_RAW_END => "set_raw_end",
        SET_RAW_POS => "set_raw_pos",
        WRITE_BIT => "write_bit",
        WRITE_ZEROES => "write_zeroes",
        WRITE_ONES => "write_ones",
        READ_INTO_SLICE => "read_bits_into_slice",
        TO_BITARR => "to_bitarr",
        COPY_BITS => "copy_bits",
        FROM_BITARR => "copy_bits_from_bitarr",
        _ => "into_bitvec",
    }
}

#[derive(Clone)]
pub struct BitCase {
    pub call: u8,
    pub bytes: Vec<u8>,
    pub window: Window,
    pub numbers: Vec<u64>,
}

/// What the original did: the words of its answer, or why it stopped; the window and the bytes that it left.
pub struct Did {
    pub words: Result<Vec<u64>, String>,
    pub window: Window,
    pub bytes: Vec<u8>,
}

/// What this port has to do: complete with the words, refuse by a number, or refuse as an entry of docs/DIFFERENCES.md says.
pub enum Must {
    Complete(Vec<u64>),
    Refuse(u8),
    Differ(u8, u8),
}

fn window_of(b: &BitBuffer) -> Window {
    Window { start: b.get_raw_start(), pos: b.get_raw_pos(), end: b.get_raw_end() }
}

fn window_words(w: Window) -> Vec<u64> {
    vec![w.start as u64, w.pos as u64, w.end as u64]
}

/// The whole window's bits, by `to_bitarr` from its start; `into_bitvec` takes as many from bit 0, the same where the window starts there.
fn window_bits(b: &BitBuffer) -> Vec<u8> {
    let mut bits = vec![2; b.get_len()];
    let mut whole = b.clone();
    whole.set_raw_pos(b.get_raw_start());
    whole.to_bitarr(&mut bits);
    if b.get_raw_start() == 0 {
        assert_eq!(b.clone().into_bitvec(), bits);
    }
    bits
}

impl BitCase {
    pub fn writes(&self) -> bool {
        self.call == WRITE_BITS || self.call >= WRITE_BIT
    }

    fn splits(&self) -> bool {
        self.call >= READ_INTO_SLICE
    }

    /// Whether the first bytes are those of the window.
    fn window_first(&self) -> bool {
        self.call < COPY_BITS || self.call == INTO_BITVEC
    }

    /// The bytes of the buffer that has the window, and the others.
    fn parts(&self) -> (Vec<u8>, Vec<u8>) {
        if !self.splits() {
            return (self.bytes.clone(), vec![]);
        }
        let (first, second) = self.bytes.split_at(self.numbers[0] as usize);
        if self.window_first() { (first.to_vec(), second.to_vec()) } else { (second.to_vec(), first.to_vec()) }
    }

    fn joined(&self, own: Vec<u8>, other: Vec<u8>) -> Vec<u8> {
        if self.window_first() { [own, other].concat() } else { [other, own].concat() }
    }

    fn source_window(&self) -> Window {
        let n = &self.numbers;
        Window { start: n[2] as usize, pos: n[3] as usize, end: n[4] as usize }
    }

    fn on(&self, b: &mut BitBuffer, other: &mut [u8]) -> Option<Vec<u64>> {
        let a = self.numbers.first().copied().unwrap_or(0);
        let n = self.numbers.get(1).copied().unwrap_or(0) as usize;
        let place = a as usize;
        let value = |v: usize| Some(vec![v as u64]);
        let done = || Some(vec![]);
        match self.call {
            READ_BITS => b.read_bits(place).map(|v| vec![v]),
            PEEK_POSOFFSET => b.peek_bits_posoffset(a as isize, n).map(|v| vec![v]),
            WRITE_BITS => (b.write_bits(a, n), done()).1,
            READ_BIT => b.read_bit().map(|v| vec![v as u64]),
            PEEK_BITS => b.peek_bits(place).map(|v| vec![v]),
            PEEK_STARTOFFSET => b.peek_bits_startoffset(place, n).map(|v| vec![v]),
            GET_LEN => value(b.get_len()),
            GET_LEN_REMAINING => value(b.get_len_remaining()),
            GET_LEN_WRITTEN => value(b.get_len_written()),
            GET_POS => value(b.get_pos()),
            SEEK => (b.seek(place), done()).1,
            SEEK_REL => (b.seek_rel(a as isize), done()).1,
            SET_RAW_START => (b.set_raw_start(place), done()).1,
            SET_RAW_END => (b.set_raw_end(place), done()).1,
            SET_RAW_POS => (b.set_raw_pos(place), done()).1,
            WRITE_BIT => (b.write_bit(a as u8), done()).1,
            WRITE_ZEROES => (b.write_zeroes(place), done()).1,
            WRITE_ONES => (b.write_ones(place), done()).1,
            READ_INTO_SLICE => b.read_bits_into_slice(n, other).map(|()| vec![n as u64]),
            TO_BITARR => (b.to_bitarr(other), value(other.len())).1,
            COPY_BITS => {
                let mut source = original::buffer(other, self.source_window()).expect("a source window");
                b.copy_bits(&mut source, n);
                value(source.get_raw_pos())
            }
            FROM_BITARR => (b.copy_bits_from_bitarr(other), done()).1,
            _ => {
                let bits = window_bits(b);
                // the original makes a vector of its own, and has no destination that may be too short
                if let Some(to) = other.get_mut(..bits.len()) {
                    to.copy_from_slice(&bits);
                }
                value(bits.len())
            }
        }
    }

    /// Calls that only tell a place of the window, or make one.
    fn place(&self) -> Option<Vec<u64>> {
        let w = self.window;
        let made = |b: BitBuffer| window_words(window_of(&b));
        let b = original::buffer(&self.bytes, w);
        match self.call {
            GET_RAW_START => Some(vec![b?.get_raw_start() as u64]),
            GET_RAW_END => Some(vec![b?.get_raw_end() as u64]),
            GET_RAW_POS => Some(vec![b?.get_raw_pos() as u64]),
            NEW => told(|| Some(made(BitBuffer::new(self.numbers[0] as usize)))).ok(),
            FROM_BYTES => Some(made(BitBuffer::from_bytes(&self.bytes))),
            _ => None,
        }
    }

    /// None where there is no such window.
    pub fn did(&self) -> Option<Did> {
        if (GET_RAW_START..=FROM_BYTES).contains(&self.call) {
            return Some(Did { words: Ok(self.place()?), window: self.window, bytes: self.bytes.clone() });
        }
        let (own, mut other) = self.parts();
        let mut b = original::buffer(&own, self.window)?;
        if self.call == COPY_BITS {
            original::buffer(&other, self.source_window())?;
        }
        let words = told(|| self.on(&mut b, &mut other));
        let window = window_of(&b);
        let words = words.map(|w| [window_words(window), w].concat());
        Some(Did { words, window, bytes: self.joined(b.into_bytes(), other) })
    }

    /// The number by which this port refuses what the original stops at, by document 01's order of checks.
    fn number(&self) -> u8 {
        let (_, other) = self.parts();
        match self.call {
            READ_BITS | PEEK_POSOFFSET | READ_BIT | PEEK_BITS | PEEK_STARTOFFSET | TO_BITARR => 1,
            WRITE_BIT if self.numbers[0] > 1 => 3,
            FROM_BITARR if other.iter().any(|v| *v > 1) => 3,
            READ_INTO_SLICE if self.left() < self.numbers[1] => 1,
            COPY_BITS if ((self.source_window().end - self.source_window().pos) as u64) < self.numbers[1] => 1,
            SEEK | SEEK_REL | SET_RAW_START | SET_RAW_END | SET_RAW_POS => 13,
            _ => 2,
        }
    }

    fn left(&self) -> u64 {
        (self.window.end - self.window.pos) as u64
    }

    /// The entry of docs/DIFFERENCES.md by which this port refuses what the original completes, and the number of the refusal.
    fn listed(&self) -> Option<(u8, u8)> {
        let w = self.window;
        let n = |i: usize| self.numbers[i] as u128;
        match self.call {
            GET_RAW_START | GET_RAW_END | GET_RAW_POS => None,
            NEW if n(0) > u64::MAX as u128 / 2 => Some((4, 13)),
            NEW => (n(0) > 65536.min(8 * self.bytes.len() as u128)).then_some((1, 13)),
            FROM_BYTES => (self.bytes.len() > 8192).then_some((1, 13)),
            _ if w.end > 65536 => Some((1, 13)),
            PEEK_POSOFFSET => ((w.pos as i128) + (self.numbers[0] as i64 as i128) < w.start as i128).then_some((2, 1)),
            PEEK_STARTOFFSET => (w.start as u128 + n(0) + n(1) > w.end as u128).then_some((2, 1)),
            SEEK => (w.start as u128 + n(0) > w.end as u128).then_some((4, 13)),
            READ_INTO_SLICE => (n(1) > self.left() as u128).then_some((4, 1)),
            INTO_BITVEC => (self.parts().1.len() < w.end - w.start).then_some((12, 2)),
            _ => None,
        }
    }

    pub fn must(&self, did: &Option<Did>) -> Must {
        match did {
            None => Must::Refuse(13),
            Some(Did { words: Ok(words), .. }) => match self.listed() {
                Some((entry, number)) => Must::Differ(entry, number),
                None => Must::Complete(words.clone()),
            },
            Some(_) => Must::Refuse(self.number()),
        }
    }

    /// The words that this port answers where it refuses: the windows as they were.
    pub fn refused_words(&self) -> Vec<u64> {
        match self.call {
            NEW | FROM_BYTES => vec![],
            COPY_BITS => [window_words(self.window), vec![self.numbers[3]]].concat(),
            _ => window_words(self.window),
        }
    }

    /// How large it is, for the smallest of several.
    pub fn size(&self) -> (usize, u64, u64) {
        let w = self.window;
        let near = |v: u64| v.min(v.wrapping_neg());
        let numbers = self.numbers.iter().fold(0u64, |sum, v| sum.saturating_add(near(*v)));
        let ones: u32 = self.bytes.iter().map(|b| b.count_ones()).sum();
        (self.bytes.len(), (w.start + w.pos + w.end) as u64, numbers.saturating_add(ones as u64))
    }

    pub fn show(&self) -> String {
        let w = self.window;
        let numbers = self.numbers.iter().map(|v| if *v > u64::MAX / 2 { (*v as i64).to_string() } else { v.to_string() });
        let numbers = numbers.collect::<Vec<_>>().join(" ");
        format!("{}: {:02x?}, window {} {} {}, numbers {numbers}", name(self.call), self.bytes, w.start, w.pos, w.end)
    }
}
