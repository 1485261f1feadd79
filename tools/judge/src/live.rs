//! The calls of the bit buffer, and the helpers that have no C call, held against the original at scale: lists of recorded answers are made part
//! by part and given to the program of crates/replay, whose last line must be `.. 0 differences`.
use crate::bit_calls::{self, BitCase, Did, Must};
use crate::bit_cases;
use crate::cases::Rng;
use crate::helpers;
use crate::lent_cursor;
use crate::original_only;
use crate::record::List;
use std::collections::BTreeMap;
use std::io::{Read, Write};
use std::process::{Command, Stdio};

/// The bytes of a part.
const PART: usize = 1_000_000;

struct Live<'a> {
    replay: &'a str,
    list: List,
    cases: Vec<BitCase>,
    all: u64,
    wrong: u64,
    /// Cases in which the original traps on a sum, in a build that checks them: by call.
    traps: BTreeMap<&'static str, u64>,
    /// The smallest case of each difference and call, and what the original did.
    smallest: BTreeMap<(&'static str, &'static str), (BitCase, String)>,
}

fn told(did: &Did) -> String {
    let w = did.window;
    let said = match &did.words {
        Ok(words) => format!("gives {words:?}"),
        Err(why) => format!("stops ({why})"),
    };
    format!("{said}, window {} {} {}, {:02x?}", w.start, w.pos, w.end, did.bytes)
}

/// The entries of docs/DIFFERENCES.md that a case shows.
fn entries(c: &BitCase, did: &Option<Did>) -> Vec<&'static str> {
    let moved = |d: &Did| d.window != c.window || d.bytes != c.bytes;
    match (c.must(did), did) {
        (Must::Differ(12, _), _) => vec!["12"],
        (Must::Differ(entry, _), _) => vec![["", "1", "2", "3", "4"][entry as usize]],
        (Must::Refuse(_), Some(d)) => {
            let panics = d.words.as_ref().is_err_and(|why| why != "gives none");
            [(moved(d), "3"), (panics, "5")].into_iter().filter(|(is, _)| *is).map(|(_, entry)| entry).collect()
        }
        _ => vec![],
    }
}

impl Live<'_> {
    fn shown(&mut self, entry: &'static str, c: &BitCase, did: &Did) {
        let key = (entry, bit_calls::name(c.call));
        if self.smallest.get(&key).is_none_or(|(least, _)| c.size() < least.size()) {
            self.smallest.insert(key, (c.clone(), told(did)));
        }
    }

    fn visit(&mut self, c: BitCase) {
        let did = c.did();
        if let Some(Did { words: Err(why), .. }) = &did {
            if why.contains("with overflow") {
                *self.traps.entry(bit_calls::name(c.call)).or_default() += 1;
                return self.shown("a checked build traps", &c, did.as_ref().unwrap());
            }
        }
        for entry in entries(&c, &did) {
            self.shown(entry, &c, did.as_ref().unwrap());
        }
        self.list.put_bits(&c, &did);
        if self.list.cases as usize > self.cases.len() {
            self.cases.push(c);
        }
        if self.list.bytes.len() > PART {
            self.flush();
        }
    }

    /// Replays the part, and shows each case that is not as the original has it.
    fn flush(&mut self) {
        let mut list = std::mem::take(&mut self.list);
        let cases = std::mem::take(&mut self.cases);
        list.bytes.push(0);
        let mut child = Command::new(self.replay).stdin(Stdio::piped()).stdout(Stdio::piped()).spawn().expect("the program of crates/replay");
        let mut stdin = child.stdin.take().unwrap();
        let bytes = list.bytes;
        let writer = std::thread::spawn(move || stdin.write_all(&bytes));
        let mut said = String::new();
        child.stdout.take().unwrap().read_to_string(&mut said).unwrap();
        writer.join().unwrap().ok();
        child.wait().unwrap();
        self.all += list.cases;
        if said.lines().last() == Some(&format!("{} cases, 0 differences", list.cases)) {
            return;
        }
        self.wrong += 1;
        for line in said.lines().filter(|l| l.starts_with("case ") || l.contains("MALFORMED") || l.contains("differences")) {
            println!("{line}");
            let number = line.strip_prefix("case ").and_then(|l| l.split(',').next()).and_then(|n| n.parse::<usize>().ok());
            if let Some(c) = number.and_then(|n| cases.get(n)) {
                println!("  {}: {}", c.show(), c.did().map_or("no such window".to_string(), |d| told(&d)));
            }
        }
    }
}

/// Every helper's values, every window of up to three bytes, windows that are none, and so many random calls.
pub fn run(replay: &str, random: u64, seed: u64) -> bool {
    let list = List::default();
    let mut live = Live { replay, list, cases: vec![], all: 0, wrong: 0, traps: BTreeMap::new(), smallest: BTreeMap::new() };
    helpers::all().iter().for_each(|h| live.list.put_helper(h));
    live.flush();
    println!("{} calls of helpers, on every value of their domain", live.all);
    let mut g = Rng(seed);
    bit_cases::in_chunks(&mut |c| live.visit(c));
    for len in 0..=3 {
        bit_cases::windows(&mut g, &mut |c| live.visit(c), len);
    }
    bit_cases::bad_windows(&mut g, &mut |c| live.visit(c));
    live.flush();
    println!("{} with every window of up to three bytes, and windows that are none", live.all);
    for _ in 0..random {
        bit_cases::random(&mut g, &mut |c| live.visit(c));
    }
    live.flush();
    println!("{} with random calls, seed {seed}; parts of the list with a difference: {}", live.all, live.wrong);
    for (call, n) in &live.traps {
        println!("a checked build traps: {call}, {n} cases");
    }
    println!("the smallest of each entry of docs/DIFFERENCES.md and call:");
    for ((entry, _), (c, did)) in &live.smallest {
        println!("{entry}: {}: the original {did}", c.show());
    }
    let lent = lent_cursor::agrees(replay);
    let tried = original_only::all();
    for (entry, what, is) in &tried {
        println!("{entry}: {what}{}", if *is { "" } else { ": NOT SO" });
    }
    live.wrong == 0 && lent && tried.iter().all(|(_, _, is)| *is)
}
