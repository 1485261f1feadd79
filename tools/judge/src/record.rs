//! Recorded answers of the original, for the program crates/replay: crates/replay/stdin.
//!
//! A number is one byte below 248, or 247 + n and then n bytes, most significant first. A record is its length, and then:
//! - the call: 0 to 5 reads and 16 to 21 writes of the six types in the order of KINDS; 32 read_bits, 33 peek_bits_posoffset, 34 write_bits;
//!   40 compute_len, 41 compute_header_len, 42 update_len_and_fill_ind; 48 to 76 the bit buffer's (`bit_calls`), 80 to 110 helpers
//!   (`helpers`), 112 to 114 a block's step, add and finish;
//! - what the original did: 0 completed, 1 refused, 2 refused since the bits are at their end, 3 stopped where a listed difference has this
//!   port complete, 16 + n completed where one has this port refuse by the number n, 32 + n refused, and this port by the number n;
//! - the bytes, after their count; start, pos and end of the window;
//! - how many windows it stands for: this one, and those that end 1, 2, .. bits later, where the original did the same;
//! - the call's numbers, after their count: none; the record of the type; the width; the offset, as its two's complement, and the width; the
//!   value and the width; the record and, for 42, the bits of content; and as the later calls have them;
//! - for 0, and from call 48 on for all, the words of this port's answer, after their count, the cursor first where the call has one; and for
//!   0 and 3 the bytes that a call that writes left;
//! - for 2 the bits from pos at which the original stopped, in pairs, after the count of their numbers: for how many windows, and the bit.
//!
//! The list is in pages of 16,384 bytes. A record of length 0 ends each; what is behind it up to the next page is 0, and the last page ends there.
use crate::bit_calls::{BitCase, Did, Must};
use crate::bit_cases;
use crate::cases::{self, Rng};
use crate::helpers::{self, Helper};
use crate::kind::{KINDS, Kind, listed_read, listed_write};
use crate::original::{self, caught};
use crate::ours::Window;
use crate::record_block;
use crate::their_block::OnBlock;
use crate::values;
use std::collections::HashSet;
use tetra_core::BitBuffer;
use tetra_core::pdu_parse_error::PduParseErr;

const WRITE: u8 = 16;
const READ_BITS: u8 = 32;
const PEEK_BITS: u8 = 33;
const WRITE_BITS: u8 = 34;
const CHANNEL_LEN: u8 = 40;
const HEADER_LEN: u8 = 41;
const UPDATE_LEN: u8 = 42;

const PAGE: usize = 16384;

const NO_WINDOW: Window = Window { start: 0, pos: 0, end: 0 };

/// A call and what it is called on.
#[derive(Clone, Copy)]
struct Case<'a> {
    call: u8,
    bytes: &'a [u8],
    window: Window,
    numbers: &'a [u64],
}

/// The words of an answer, and the bytes that the call left.
type Answer = Option<(Vec<u64>, Vec<u8>)>;

impl<'a> Case<'a> {
    fn read(k: Kind, bytes: &'a [u8], window: Window) -> Self {
        Case { call: k as u8, bytes, window, numbers: &[] }
    }

    fn write(k: Kind, bytes: &'a [u8], window: Window, numbers: &'a [u64]) -> Self {
        Case { call: WRITE + k as u8, bytes, window, numbers }
    }

    fn length(call: u8, numbers: &'a [u64]) -> Self {
        Case { call, bytes: &[], window: NO_WINDOW, numbers }
    }

    fn ending(self, end: usize) -> Self {
        Case { window: Window { end, ..self.window }, ..self }
    }

    fn writes(&self) -> bool {
        (WRITE..READ_BITS).contains(&self.call) || self.call == WRITE_BITS
    }

    fn lengths(&self) -> Vec<u64> {
        if self.call == CHANNEL_LEN {
            return vec![original::channel(self.numbers).compute_len() as u64];
        }
        let mut h = original::resource(self.numbers);
        if self.call == HEADER_LEN {
            return vec![h.compute_header_len() as u64];
        }
        let fill = h.update_len_and_fill_ind(self.numbers[25] as usize) as u64;
        vec![h.length_ind as u64, h.fill_bits as u64, fill]
    }

    fn on(&self, b: &mut BitBuffer) -> Option<Vec<u64>> {
        let n = self.numbers;
        match self.call {
            READ_BITS => Some(vec![b.read_bits(n[0] as usize)?]),
            PEEK_BITS => Some(vec![b.peek_bits_posoffset(n[0] as isize, n[1] as usize)?]),
            WRITE_BITS => {
                b.write_bits(n[0], n[1] as usize);
                Some(vec![])
            }
            call if call < WRITE => original::record(KINDS[call as usize], b).ok(),
            call => original::write(KINDS[(call - WRITE) as usize], b, n).map(|_| vec![]),
        }
    }

    /// None where the original returns an error or None, or panics.
    fn answer(&self) -> Answer {
        if self.call >= CHANNEL_LEN {
            return caught(|| Some((self.lengths(), vec![])));
        }
        let mut b = original::buffer(self.bytes, self.window)?;
        let words = caught(|| self.on(&mut b))?;
        Some(([vec![b.get_raw_pos() as u64], words].concat(), b.into_bytes()))
    }

    /// The bit from pos of the field that a read has no bits for.
    fn stop(&self) -> Option<u64> {
        if self.call >= WRITE {
            return None;
        }
        let mut b = original::buffer(self.bytes, self.window)?;
        let read = caught(|| Some(original::record(KINDS[self.call as usize], &mut b)))?;
        matches!(read, Err(PduParseErr::BufferEnded { .. })).then(|| (b.get_raw_pos() - self.window.pos) as u64)
    }

    /// The number by which this port refuses where the original completes.
    fn listed(&self, words: &[u64]) -> Option<u8> {
        let (n, w) = (self.numbers, self.window);
        match self.call {
            PEEK_BITS => ((w.pos as i128) + (n[0] as i64 as i128) < w.start as i128).then_some(1),
            UPDATE_LEN => ((original::resource(n).compute_header_len() as u64).saturating_add(n[25]) > 488).then_some(8),
            call if call < WRITE => listed_read(KINDS[call as usize], words[0] as usize - w.pos, &words[1..]).map(|d| d.1),
            call if call < READ_BITS => listed_write(KINDS[(call - WRITE) as usize], n).map(|d| d.1),
            _ => None,
        }
    }
}

fn number(v: u64) -> Vec<u8> {
    if v < 248 {
        return vec![v as u8];
    }
    let n = (71 - v.leading_zeros() as usize) / 8;
    [vec![247 + n as u8], v.to_be_bytes()[8 - n..].to_vec()].concat()
}

fn numbers(v: &[u64]) -> Vec<u8> {
    number(v.len() as u64).into_iter().chain(v.iter().flat_map(|v| number(*v))).collect()
}

#[derive(Default)]
pub struct List {
    pub bytes: Vec<u8>,
    seen: HashSet<Vec<u8>>,
    pub cases: u64,
}

impl List {
    fn put(&mut self, c: Case, ends: usize, class: u8, answer: &[u8]) {
        let w = c.window;
        let window = [w.start, w.pos, w.end, ends].map(|v| number(v as u64)).concat();
        let r = [&[c.call, class, c.bytes.len() as u8], c.bytes, &window, &numbers(c.numbers), answer].concat();
        if self.seen.insert(r.clone()) {
            let record = [number(r.len() as u64), r].concat();
            if self.bytes.len() % PAGE + record.len() + 1 > PAGE {
                let pages = self.bytes.len().div_ceil(PAGE);
                self.bytes.resize(pages * PAGE, 0);
            }
            self.bytes.extend(record);
            self.cases += ends as u64;
        }
    }

    /// A call whose answer is given word for word, done or refused.
    pub fn put_words(&mut self, call: u8, c: OnBlock, class: u8, words: &[u64], left: &[u8]) {
        let case = Case { call, bytes: c.bytes, window: c.window, numbers: c.numbers };
        self.put(case, 1, class, &[&numbers(words), left].concat());
    }

    /// A call of a helper: on no bytes, and done.
    pub fn put_helper(&mut self, (call, numbers_given, words, class): &Helper) {
        self.put(Case::length(*call, numbers_given), 1, *class, &numbers(words));
    }

    /// A call of the bit buffer, by what this port has to do.
    pub fn put_bits(&mut self, c: &BitCase, did: &Option<Did>) {
        let case = Case { call: c.call, bytes: &c.bytes, window: c.window, numbers: &c.numbers };
        // a C call gives the cursor's bit alone, and the list has no number of its refusals
        let c_call = c.call < 48;
        match (c.must(did), did) {
            (Must::Complete(words), Some(did)) if c_call => {
                let left = if c.writes() { &did.bytes[..] } else { &[] };
                self.put(case, 1, 0, &[&numbers(&[&words[1..2], &words[3..]].concat()), left].concat());
            }
            (Must::Differ(_, number), _) if c_call => self.put(case, 1, 16 + number, &[]),
            (Must::Refuse(_), _) if c_call => self.put(case, 1, 1, &[]),
            (Must::Complete(words), Some(did)) => {
                let left = if c.writes() { &did.bytes[..] } else { &[] };
                self.put(case, 1, 0, &[&numbers(&words), left].concat());
            }
            (Must::Differ(_, number), _) => self.put(case, 1, 16 + number, &numbers(&c.refused_words())),
            (Must::Refuse(number), _) => self.put(case, 1, 32 + number, &numbers(&c.refused_words())),
            (Must::Complete(_), None) => unreachable!("nothing was done"),
        }
    }

    fn add(&mut self, c: Case) {
        self.add_ends(c, c.window.end);
    }

    fn add_completed(&mut self, c: Case, words: &[u64], left: Vec<u8>) {
        match c.listed(words) {
            Some(refusal) => self.put(c, 1, 16 + refusal, &[]),
            None => self.put(c, 1, 0, &[numbers(words), if c.writes() { left } else { vec![] }].concat()),
        }
    }

    /// Windows whose bits end: how many of them. A record has room for 15 pairs.
    fn add_stops(&mut self, c: Case, stops: &[u64]) -> usize {
        let mut pairs: Vec<u64> = vec![];
        let mut n = 0;
        for stop in stops {
            if pairs.last() == Some(stop) {
                let count = pairs.len() - 2;
                pairs[count] += 1;
            } else if pairs.len() < 30 {
                pairs.extend([1, *stop]);
            } else {
                break;
            }
            n += 1;
        }
        self.put(c, n, 2, &numbers(&pairs));
        n
    }

    /// The same call on windows that end anywhere from the case's end to `last`.
    fn add_ends(&mut self, c: Case, last: usize) {
        let mut end = c.window.end;
        while end <= last {
            let here = c.ending(end);
            let rest = (end..=last).map(|e| c.ending(e));
            let stops: Vec<u64> = rest.clone().map_while(|c| c.stop()).collect();
            end += match here.answer() {
                Some((words, left)) => {
                    self.add_completed(here, &words, left);
                    1
                }
                None if stops.is_empty() => {
                    let n = rest.take_while(|c| c.answer().is_none() && c.stop().is_none()).count();
                    self.put(here, n, 1, &[]);
                    n
                }
                None => self.add_stops(here, &stops),
            };
        }
    }
}

/// Bytes for any header of a type behind a start of up to 12 bits.
fn room(k: Kind) -> usize {
    match k {
        Kind::Slotgrant => 3,
        Kind::Channel => 5,
        Kind::Resource => 13,
        Kind::Assign => 4,
        Kind::Access => 6,
        Kind::Data => 7,
    }
}

/// A record of words written, and read again from where it was written.
fn write_and_read(l: &mut List, k: Kind, r: &[u64], turn: usize, cut: bool) -> Option<(Vec<u8>, Window)> {
    let start = turn % 10;
    let pos = start + turn % 3;
    let s = vec![(37 * turn) as u8; room(k)];
    let c = Case::write(k, &s, Window { start, pos, end: 8 * s.len() }, r);
    l.add(c);
    let (words, left) = c.answer()?;
    let end = words[0] as usize;
    let kept = left[..end.div_ceil(8)].to_vec();
    if cut {
        l.add_ends(Case::write(k, &s[..kept.len()], Window { start, pos, end: pos }, r), end);
        l.add_ends(Case::read(k, &kept, Window { start, pos, end: pos }), end);
    } else {
        l.add(Case::read(k, &kept, Window { start, pos, end }));
    }
    Some((kept, Window { start, pos, end }))
}

/// A good header with each of its bits turned.
fn turned(l: &mut List, k: Kind, s: &[u8], w: Window) {
    for at in w.pos..w.end {
        let mut t = s.to_vec();
        t[at / 8] ^= 0x80 >> (at % 8);
        l.add(Case::read(k, &t, w));
    }
}

fn headers(l: &mut List) {
    for k in KINDS {
        for (turn, r) in values::forms(k).iter().enumerate() {
            let Some((s, w)) = write_and_read(l, k, r, turn, true) else { continue };
            if k != Kind::Resource || r[5] == 0 || (r[9] + r[11] + r[15] == 3 && r[22] == 0) {
                turned(l, k, &s, w);
            }
        }
        for (turn, r) in values::values(k).iter().enumerate() {
            write_and_read(l, k, r, turn, false);
        }
    }
}

/// Every slot grant, and every ACCESS-ASSIGN field beside a few others.
fn every_value(l: &mut List) {
    for v in 0..=255u8 {
        l.add(Case::read(Kind::Slotgrant, &[v], Window { start: 0, pos: 0, end: 8 }));
    }
    for v in 0..256u16 {
        for other in [0, 37] {
            let (header, field) = (v >> 6, v & 63);
            for fields in [field << 6 | other, other << 6 | field] {
                let s = (header << 14 | fields << 2).to_be_bytes();
                l.add(Case::read(Kind::Assign, &s, Window { start: 0, pos: 0, end: 14 }));
            }
        }
    }
}

/// The bits that begin a MAC-RESOURCE: each first 7 bits and each length, of a null PDU and of one with an SSI.
fn beginnings(l: &mut List) {
    let w = Window { start: 0, pos: 0, end: 43 };
    for address in [0, 1] {
        for v in 0..128u16 {
            let begin = (v << 9 | 34 << 3 | address).to_be_bytes();
            l.add(Case::read(Kind::Resource, &[begin[0], begin[1], 0x12, 0x34, 0x56, 0], w));
        }
        for length in 0..64u16 {
            let begin = (length << 3 | address).to_be_bytes();
            l.add(Case::read(Kind::Resource, &[begin[0], begin[1], 0x12, 0x34, 0x56, 0], w));
        }
    }
}

/// Windows that are none.
fn bad_windows(l: &mut List, c: Case) {
    let e = 8 * c.bytes.len();
    for (start, pos, end) in [(1, 0, e), (0, e + 1, e), (0, 0, e + 1), (0, 8, 7), (3, 2, 1), (0, 0, 65536), (0, 0, 65537), (e + 1, e + 1, e + 1)] {
        l.add(Case { window: Window { start, pos, end }, ..c });
    }
}

fn windows(l: &mut List, g: &mut Rng) {
    for k in KINDS {
        let s = cases::bytes(g, room(k));
        bad_windows(l, Case::read(k, &s, NO_WINDOW));
        bad_windows(l, Case::write(k, &s, NO_WINDOW, &values::forms(k)[0]));
    }
    for (call, n) in [(READ_BITS, vec![3]), (PEEK_BITS, vec![0, 3]), (WRITE_BITS, vec![5, 3])] {
        bad_windows(l, Case { call, bytes: &[1, 2, 3], window: NO_WINDOW, numbers: &n });
    }
}

/// Headers and records as they come, in windows that start and end anywhere.
fn any(l: &mut List, g: &mut Rng, rounds: u64) {
    for _ in 0..rounds {
        for k in KINDS {
            let (s, w) = cases::to_read(g, k);
            l.add(Case::read(k, &s[..w.end.div_ceil(8)], w));
            let n = g.below(room(k) as u64 + 2) as usize;
            let s = cases::bytes(g, n);
            let w = cases::window(g, n);
            l.add(Case::write(k, &s, w, &cases::record(g, k)));
        }
    }
}

/// Each width, in windows as they come and in those that it fits.
fn bits(l: &mut List, g: &mut Rng) {
    for turn in 0..6 * 67 {
        let width = turn % 67;
        let n = 9 + g.below(4) as usize;
        let s = cases::bytes(g, n);
        let mut w = cases::window(g, n);
        if turn / 67 % 3 != 0 {
            w.pos = g.below(8 * n as u64 - width + 1) as usize;
            w.start = g.below(w.pos as u64 + 1) as usize;
            w.end = w.pos + width as usize + g.below((8 * n - w.pos) as u64 - width + 1) as usize;
        }
        l.add(Case { call: READ_BITS, bytes: &s, window: w, numbers: &[width] });
        l.add(Case { call: PEEK_BITS, bytes: &s, window: w, numbers: &[g.below(60).wrapping_sub(30), width / 3] });
        let shift = 64u64.saturating_sub(width).min(63);
        let value = match turn % 7 {
            0 => 0,
            1 => u64::MAX >> shift,
            2 => 1u64.checked_shl(width as u32).unwrap_or(u64::MAX),
            _ => g.next() >> shift,
        };
        l.add(Case { call: WRITE_BITS, bytes: &s, window: w, numbers: &[value, width] });
    }
}

fn lengths(l: &mut List) {
    for r in values::values(Kind::Channel) {
        l.add(Case::length(CHANNEL_LEN, &r));
    }
    for r in values::values(Kind::Resource).iter().filter(|r| r[15] == 1 && r[5] == 2) {
        l.add(Case::length(HEADER_LEN, r));
        l.add(Case::length(UPDATE_LEN, &[&r[..], &[100]].concat()));
    }
    for (turn, r) in values::forms(Kind::Resource).iter().enumerate() {
        let c = Case::length(HEADER_LEN, r);
        l.add(c);
        let header = c.lengths()[0];
        let every = [header, header + 1, 280, 281, 480, 487, 488, 489, 496, 497, 504, 505, 2040, 2048];
        for content in [u64::MAX, u64::MAX - 15] {
            l.add(Case::length(UPDATE_LEN, &[&r[..], &[content]].concat()));
        }
        let some = [header + turn as u64, 488, 489];
        for total in if turn % 16 == 0 { &every[..] } else { &some[..] } {
            l.add(Case::length(UPDATE_LEN, &[&r[..], &[total.saturating_sub(header)]].concat()));
        }
    }
}

/// One in so many of the calls on every window of no byte and of one, and on windows that are none; and random calls.
fn bit_buffer(l: &mut List, g: &mut Rng) {
    let mut at = 0;
    let mut one_in = |n: usize, c: BitCase| {
        at += 1;
        if at % n == 0 {
            let did = c.did();
            l.put_bits(&c, &did);
        }
    };
    bit_cases::in_chunks(&mut |c| one_in(1, c));
    bit_cases::windows(g, &mut |c| one_in(1, c), 0);
    bit_cases::windows(g, &mut |c| one_in(3, c), 1);
    bit_cases::bad_windows(g, &mut |c| one_in(5, c));
    (0..1500).for_each(|_| bit_cases::random(g, &mut |c| one_in(1, c)));
}

pub fn list() -> Vec<u8> {
    let mut l = List::default();
    let mut g = Rng(2026);
    headers(&mut l);
    every_value(&mut l);
    beginnings(&mut l);
    lengths(&mut l);
    windows(&mut l, &mut g);
    bits(&mut l, &mut g);
    any(&mut l, &mut g, 75);
    helpers::all().iter().for_each(|h| l.put_helper(h));
    bit_buffer(&mut l, &mut g);
    record_block::all(&mut l, &mut g, 120);
    l.bytes.push(0);
    println!("{} records, {} cases, {} bytes", l.seen.len(), l.cases, l.bytes.len());
    l.bytes
}
