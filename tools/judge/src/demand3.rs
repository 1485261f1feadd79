//! Demand 3 at run time: blocks that were written by runs, and blocks of random bits, walked, altered and walked again.
use crate::altered::{Altered, walked};
use crate::block_cases;
use crate::cases::{self, Rng};
use crate::runs::Run;
use tetra_mac::block::BlockEntry;

/// What was seen of one kind of blocks.
#[derive(Default)]
struct Row {
    blocks: u64,
    /// Adds that were accepted, and those that were not.
    accepted: u64,
    refused_adds: u64,
    /// Entries of the walks before anything was altered.
    read: u64,
    null: u64,
    refused: u64,
    /// PDUs that were altered, and those of them that were read before and are refused now.
    altered: u64,
    refused_then: u64,
    /// Blocks of which something is wrong.
    wrong: u64,
}

/// The smallest of what is wrong.
#[derive(Default)]
struct Wrong {
    run: Option<Run>,
    altered: Option<Altered>,
}

fn written(g: &mut Rng, row: &mut Row, wrong: &mut Wrong) -> Option<(Vec<u8>, usize)> {
    let run = Run::random(g);
    match run.check() {
        Ok(done) => {
            row.accepted += done.accepted;
            row.refused_adds += done.refused;
            Some((done.bytes, run.bits))
        }
        Err(_) => {
            row.wrong += 1;
            if wrong.run.as_ref().is_none_or(|r| run.size() < r.size()) {
                wrong.run = Some(run);
            }
            None
        }
    }
}

fn random_bits(g: &mut Rng, framed: bool) -> (Vec<u8>, usize) {
    let n = block_cases::size(g);
    let spare = g.below(4) as usize;
    let mut bytes = cases::bytes(g, n.div_ceil(8) + spare);
    if framed {
        block_cases::framed(g, &mut bytes, n);
    }
    (bytes, n)
}

fn count_entries(row: &mut Row, bytes: &[u8], n: usize) {
    for entry in walked(bytes, n).map_or(vec![], |w| w.0) {
        match entry {
            BlockEntry::Resource(_) => row.read += 1,
            BlockEntry::Null(_) => row.null += 1,
            BlockEntry::Refused(_) => row.refused += 1,
        }
    }
}

fn alter(g: &mut Rng, bytes: Vec<u8>, n: usize, row: &mut Row, wrong: &mut Wrong) {
    let altered = Altered::random(g, bytes, n);
    match altered.check() {
        Ok((pdus, refused)) => {
            row.altered += pdus;
            row.refused_then += refused;
        }
        Err(_) => {
            row.wrong += 1;
            if wrong.altered.as_ref().is_none_or(|a| altered.size() < a.size()) {
                wrong.altered = Some(altered);
            }
        }
    }
}

fn show(name: &str, r: &Row) {
    let cells = [r.blocks, r.accepted, r.refused_adds, r.read, r.null, r.refused, r.altered, r.refused_then, r.wrong];
    println!("| {name:27} |{}", cells.map(|v| format!(" {v:>12} |")).concat());
}

/// Makes a block, or finds that it is wrong.
type Make = fn(&mut Rng, &mut Row, &mut Wrong) -> Option<(Vec<u8>, usize)>;

/// So many blocks that were written, and a quarter as many of random bits that are framed as PDUs, and of any.
pub fn run(blocks: u64, seed: u64) -> bool {
    let mut g = Rng(seed);
    let mut wrong = Wrong::default();
    println!("demand 3 at run time:");
    let head = ["blocks", "added", "not added", "read", "null", "refused", "altered", "refused then", "wrong"];
    println!("| {:27} |{}", "blocks", head.map(|h| format!(" {h:>12} |")).concat());
    println!("|{}", "---|".repeat(1 + head.len()));
    let kinds: [(&str, u64, Make); 3] = [
        ("written by runs", blocks, written),
        ("PDUs of random bits", blocks.div_ceil(4), |g, _, _| Some(random_bits(g, true))),
        ("random bits", blocks.div_ceil(4), |g, _, _| Some(random_bits(g, false))),
    ];
    for (name, count, make) in kinds {
        let mut row = Row { blocks: count, ..Row::default() };
        for _ in 0..count {
            if let Some((bytes, n)) = make(&mut g, &mut row, &mut wrong) {
                count_entries(&mut row, &bytes, n);
                alter(&mut g, bytes, n, &mut row, &mut wrong);
            }
        }
        show(name, &row);
    }
    wrong.show()
}

impl Wrong {
    /// Whether there is nothing.
    fn show(self) -> bool {
        let right = self.run.is_none() && self.altered.is_none();
        if let Some(run) = self.run.map(Run::shrunk) {
            println!("wrong: {}: {}", run.show(), run.check().err().unwrap_or_default());
        }
        if let Some(altered) = self.altered.map(Altered::shrunk) {
            println!("wrong: {}: {}", altered.show(), altered.check().err().unwrap_or_default());
        }
        right
    }
}
