//! The live comparison: each answer is equal, refused by both, or a listed difference; anything else fails.
use crate::case::{Call, Case, Class};
use crate::cases::{self, Rng};
use crate::original::{self, caught};
use crate::ours::{KINDS, Kind, Window};
use crate::{blocks, demand3, names, sweep, sweep_block};
use std::collections::BTreeMap;
use tetra_core::BitBuffer;

const CLASSES: [(Class, &str); 12] = [
    (Class::Equal, "equal"),
    (Class::Refused, "refused"),
    (Class::Refused3, "refused, 3"),
    (Class::Refused5, "refused, 5"),
    (Class::Refused35, "refused, 3 5"),
    (Class::Rule, "rule"),
    (Class::Listed(1), "1"),
    (Class::Listed(2), "2"),
    (Class::Listed(6), "6"),
    (Class::Listed(7), "7"),
    (Class::Listed(8), "8"),
    (Class::Listed(9), "9"),
];

#[derive(Default)]
pub struct Counts {
    /// By the call's name; a call's row stands where it first came.
    rows: Vec<(&'static str, BTreeMap<Class, u64>)>,
    /// The smallest case of each class that is a difference, and of those that are wrong.
    smallest: BTreeMap<Class, Case>,
    all: u64,
}

impl Counts {
    pub fn add(&mut self, case: Case) {
        let class = case.class();
        let name = case.name();
        let at = self.rows.iter().position(|(n, _)| *n == name).unwrap_or_else(|| {
            self.rows.push((name, BTreeMap::new()));
            self.rows.len() - 1
        });
        *self.rows[at].1.entry(class).or_default() += 1;
        self.all += 1;
        let plain = matches!(class, Class::Equal | Class::Refused | Class::Rule);
        if !plain && self.smallest.get(&class).is_none_or(|c| case.size() < c.size()) {
            self.smallest.insert(class, case);
        }
    }

    /// The counts as a table, and whether nothing was wrong.
    fn show(mut self) -> bool {
        println!("| {:27} | {:>9} |{} wrong |", "call", "cases", CLASSES.map(|(_, name)| format!(" {name:>12} |")).concat());
        println!("|{}", "---|".repeat(3 + CLASSES.len()));
        self.rows.sort_by_key(|(name, _)| *name);
        let mut totals: BTreeMap<Class, u64> = BTreeMap::new();
        for (name, counts) in &self.rows {
            row(name, counts);
            counts.iter().for_each(|(c, n)| *totals.entry(*c).or_default() += n);
        }
        row("all", &totals);
        println!("the smallest of each:");
        for (class, case) in self.smallest {
            let case = case.shrunk();
            let name = CLASSES.iter().find(|(c, _)| *c == class).map_or("wrong", |(_, name)| name);
            println!("{name}: {}: {}", case.show(), case.answers());
        }
        !totals.contains_key(&Class::Wrong)
    }
}

fn row(name: &str, counts: &BTreeMap<Class, u64>) {
    let count = |c: Class| counts.get(&c).copied().unwrap_or(0);
    let cells = CLASSES.map(|(c, _)| format!(" {:>12} |", count(c))).concat();
    println!("| {name:27} | {:>9} |{cells} {:>5} |", counts.values().sum::<u64>(), count(Class::Wrong));
}

/// A window that may be no good, once in 16 with a number that is far off.
fn any_window(g: &mut Rng, bytes: usize) -> Window {
    let mut w = cases::window(g, bytes);
    let bits = 8 * bytes as u64;
    if g.once_in(12) {
        let place = [&mut w.start, &mut w.pos, &mut w.end];
        let v = if g.once_in(4) { g.next() >> g.below(64) } else { g.below(bits + 10) };
        *place.into_iter().nth(g.below(3) as usize).unwrap() = v as usize;
    }
    w
}

/// Reads of a type: random bits, a good one whole, cut or damaged, and good ones cut at every bit around it.
fn reads(g: &mut Rng, k: Kind, c: &mut Counts) {
    let (mut bytes, mut window) = cases::to_read(g, k);
    if g.once_in(8) {
        window = any_window(g, bytes.len());
    }
    if g.once_in(4) && !bytes.is_empty() {
        for _ in 0..1 + g.below(3) {
            let at = g.below(8 * bytes.len() as u64) as usize;
            bytes[at / 8] ^= 0x80 >> (at % 8);
        }
    }
    c.add(Case { call: Call::Read(k), bytes, window, numbers: vec![] });
    if !g.once_in(30) {
        return;
    }
    let start = g.below(17) as usize;
    let s = cases::bytes(g, 15);
    let Some(mut b) = original::buffer(&s, Window { start, pos: start, end: 120 }) else { return };
    let record = cases::record(g, k);
    let Some(end) = caught(|| original::write(k, &mut b, &record)) else { return };
    let s = b.into_bytes();
    for cut in start..=(end + 2).min(120) {
        c.add(Case { call: Call::Read(k), bytes: s.clone(), window: Window { start, pos: start, end: cut }, numbers: vec![] });
    }
}

/// A record that the original writes where there is room, if one of a few is.
fn good_record(g: &mut Rng, k: Kind) -> Vec<u64> {
    let mut record = cases::record(g, k);
    for _ in 0..6 {
        let mut b = BitBuffer::new(128);
        if caught(|| original::write(k, &mut b, &record)).is_some() {
            break;
        }
        record = cases::record(g, k);
    }
    record
}

fn writes(g: &mut Rng, k: Kind, c: &mut Counts) {
    let numbers = if g.once_in(2) { good_record(g, k) } else { cases::record(g, k) };
    let roomy = !g.once_in(3);
    let n = if roomy { 14 + g.below(7) } else { g.below(21) } as usize;
    let bytes = cases::bytes(g, n);
    let mut window = any_window(g, n);
    if roomy && window.end == 8 * n {
        window.start %= 20;
        window.pos = window.start;
    }
    c.add(Case { call: Call::Write(k), bytes, window, numbers });
}

fn bits(g: &mut Rng, c: &mut Counts) {
    let n = g.below(21) as usize;
    let bytes = cases::bytes(g, n);
    let window = any_window(g, n);
    let width = if g.once_in(50) { g.next() >> g.below(64) } else { g.below(67) };
    c.add(Case { call: Call::ReadBits, bytes: bytes.clone(), window, numbers: vec![width] });

    let offset = if g.once_in(20) { g.next() } else { g.below(200).wrapping_sub(100) };
    c.add(Case { call: Call::PeekBits, bytes: bytes.clone(), window, numbers: vec![offset, width] });

    let fitting = if width < 64 { g.next() & ((1 << width) - 1) } else { g.next() };
    let value = if g.once_in(8) { g.next() >> g.below(64) } else { fitting };
    c.add(Case { call: Call::WriteBits, bytes, window, numbers: vec![value, width] });
}

fn lengths(g: &mut Rng, c: &mut Counts) {
    let window = Window { start: 0, pos: 0, end: 0 };
    let mut put = |call: Call, numbers: Vec<u64>| c.add(Case { call, bytes: vec![], window, numbers });
    put(Call::ChannelLen, cases::record(g, Kind::Channel));
    let record = cases::record(g, Kind::Resource);
    put(Call::HeaderLen, record.clone());
    let content = if g.once_in(4) { g.next() >> g.below(64) } else { g.below(500) };
    put(Call::UpdateLen, [record, vec![content]].concat());
}

/// Cases in turn: all, or an even part of them that is at most half of so many.
fn in_turn(all: fn(&mut dyn FnMut(Case)), least: u64, seed: u64, c: &mut Counts) {
    let mut total = 0u64;
    all(&mut |_| total += 1);
    let stride = (2 * total).div_ceil(least.max(1)).max(1);
    let (before, mut at) = (c.all, seed);
    all(&mut |case| {
        at += 1;
        if at % stride == 0 {
            c.add(case);
        }
    });
    println!("seed {seed}: {} cases in turn, of {total}", c.all - before);
}

/// At least so many cases: those in turn, then random ones. Then calls on a tenth as many blocks, and demand 3 over as many.
pub fn run(least: u64, seed: u64) -> bool {
    match names::compared() {
        Ok(n) => println!("{n} codes of four enums: their cases have the original's names"),
        Err(code) => {
            println!("another name than the original's: {code}");
            return false;
        }
    }
    let mut c = Counts::default();
    in_turn(sweep::all, least, seed, &mut c);
    let mut g = Rng(seed);
    while c.all < least {
        for k in KINDS {
            reads(&mut g, k, &mut c);
            writes(&mut g, k, &mut c);
        }
        bits(&mut g, &mut c);
        lengths(&mut g, &mut c);
    }
    let of_blocks = least.div_ceil(10);
    in_turn(sweep_block::all, of_blocks, seed, &mut c);
    blocks::all(&mut Rng(seed), of_blocks, &mut c);
    let right = c.show();
    demand3::run(of_blocks, seed) && right
}
