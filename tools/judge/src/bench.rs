//! Both sides in one process on the same inputs: nanoseconds a call and the ratio to the original, with its spread over runs. This port is
//! measured through its C interface, as a call of its own and with the record of words made or taken apart; the original on values of its own.
use crate::bench_block;
use crate::original;
use crate::ours::{self, Kind, Out, Window};
use std::hint::black_box;
use std::process::Command;
use std::time::Instant;
use tetra_core::BitBuffer;

/// A run is short, so that both sides of a ratio meet the same state of the machine. Where a process has its stack and its buffers decides
/// whether loads wait for stores that only look alike, so the runs are those of several processes.
const CALLS: usize = 2_000;
const RUNS: usize = 61;
const PROCESSES: usize = 9;

/// A loop of so many calls.
pub type Calls = Box<dyn FnMut(usize)>;

pub struct Operation {
    pub name: String,
    pub theirs: Calls,
    pub ours: Calls,
}

pub fn calls(mut call: impl FnMut() + 'static) -> Calls {
    Box::new(move |n| (0..n).for_each(|_| call()))
}

fn nanoseconds(f: &mut Calls) -> f64 {
    let began = Instant::now();
    f(CALLS);
    began.elapsed().as_nanos() as f64 / CALLS as f64
}

/// The runs of one process: a line for each, with the operation's number and the nanoseconds of either side.
pub fn runs() -> bool {
    for (at, o) in operations().iter_mut().enumerate() {
        for _ in 0..RUNS {
            println!("{at} {} {}", nanoseconds(&mut o.theirs), nanoseconds(&mut o.ours));
        }
    }
    true
}

/// The runs of a process of this program, put to those of the operations.
fn add_runs(all: &mut [Vec<[f64; 3]>]) -> Option<()> {
    let done = Command::new(std::env::current_exe().ok()?).arg("runs").output().ok()?;
    for line in String::from_utf8(done.stdout).ok()?.lines() {
        let mut words = line.split(' ');
        let runs = all.get_mut(words.next()?.parse::<usize>().ok()?)?;
        let (t, u): (f64, f64) = (words.next()?.parse().ok()?, words.next()?.parse().ok()?);
        runs.push([t, u, t / u]);
    }
    done.status.success().then_some(())
}

/// The ratio is the middle one of the runs, with those that a tenth of them lie below and above; the times are those that a twentieth lies below.
fn print(name: &str, runs: &mut [[f64; 3]]) {
    let last = runs.len() - 1;
    let mut at = |column: usize, part: usize| {
        runs.sort_by(|a, b| a[column].total_cmp(&b[column]));
        runs[part * last / 20][column]
    };
    println!("{name:36} {:8.1} {:8.1} {:6.2}  {:.2} to {:.2}", at(0, 1), at(1, 1), at(2, 10), at(2, 2), at(2, 18));
}

const BYTES: usize = 34;
const WHOLE: Window = Window { start: 0, pos: 0, end: 8 * BYTES };

fn read_header(what: &str, k: Kind, s: Vec<u8>, bits: u64) -> Operation {
    let mut b = original::buffer(&s, WHOLE).unwrap();
    let mut out: Out = [0; 26];
    Operation {
        name: format!("read {what}, {bits} bits"),
        theirs: calls(move || {
            b.set_raw_pos(0);
            assert!(read_original(k, &mut b));
        }),
        ours: calls(move || ours::read(k, &s, WHOLE, &mut out).unwrap()),
    }
}

fn write_header(what: &str, k: Kind, record: Vec<u64>, bits: u64) -> Operation {
    let value = Value::of(k, &record);
    let mut b = original::buffer(&[0; BYTES], WHOLE).unwrap();
    let mut t = vec![0u8; BYTES];
    let mut out: Out = [0; 26];
    Operation {
        name: format!("write {what}, {bits} bits"),
        theirs: calls(move || {
            b.set_raw_pos(0);
            value.write(&mut b);
        }),
        ours: calls(move || ours::write(k, &mut t, WHOLE, &record, &mut out).unwrap()),
    }
}

fn header(all: &mut Vec<Operation>, what: &str, k: Kind, record: &[u64]) {
    let mut s = vec![0u8; BYTES];
    let mut out: Out = [0; 26];
    ours::write(k, &mut s, WHOLE, record, &mut out).expect("a good record");
    all.push(read_header(what, k, s, out[0]));
    all.push(write_header(what, k, record.to_vec(), out[0]));
}

/// The original's values, built before the clock starts.
enum Value {
    Slotgrant(tetra_pdus::umac::fields::basic_slotgrant::BasicSlotgrant),
    Channel(tetra_pdus::umac::fields::channel_allocation::ChanAllocElement),
    Resource(tetra_pdus::umac::pdus::mac_resource::MacResource),
    Assign(tetra_pdus::umac::pdus::access_assign::AccessAssign),
    Access(tetra_pdus::umac::pdus::mac_access::MacAccess),
    Data(tetra_pdus::umac::pdus::mac_data::MacData),
}

impl Value {
    fn of(k: Kind, r: &[u64]) -> Self {
        match k {
            Kind::Slotgrant => Value::Slotgrant(original::grant(r)),
            Kind::Channel => Value::Channel(original::channel(r)),
            Kind::Resource => Value::Resource(original::resource(r)),
            Kind::Assign => Value::Assign(original::assign(r)),
            Kind::Access => Value::Access(original::access(r)),
            Kind::Data => Value::Data(original::data(r)),
        }
    }

    fn write(&self, b: &mut BitBuffer) {
        match self {
            Value::Slotgrant(v) => v.to_bitbuf(b),
            Value::Channel(v) => v.to_bitbuf(b),
            Value::Resource(v) => v.to_bitbuf(b),
            Value::Assign(v) => v.to_bitbuf(b),
            Value::Access(v) => v.to_bitbuf(b),
            Value::Data(v) => v.to_bitbuf(b),
        }
    }
}

fn read_original(k: Kind, b: &mut BitBuffer) -> bool {
    use tetra_pdus::umac::{fields, pdus};
    match k {
        Kind::Slotgrant => fields::basic_slotgrant::BasicSlotgrant::from_bitbuf(b).is_ok(),
        Kind::Channel => fields::channel_allocation::ChanAllocElement::from_bitbuf(b).is_ok(),
        Kind::Resource => pdus::mac_resource::MacResource::from_bitbuf(b).is_ok(),
        Kind::Assign => pdus::access_assign::AccessAssign::from_bitbuf(b).is_ok(),
        Kind::Access => pdus::mac_access::MacAccess::from_bitbuf(b).is_ok(),
        Kind::Data => pdus::mac_data::MacData::from_bitbuf(b).is_ok(),
    }
}

fn bits(all: &mut Vec<Operation>, n: usize, pos: usize) {
    let s: Vec<u8> = (0..BYTES as u8).map(|i| i.wrapping_mul(37)).collect();
    let w = Window { pos, ..WHOLE };
    let value = 0x5aa5_5aa5_5aa5_5aa5u64 >> (64 - n);
    let (mut b, mut c) = (original::buffer(&s, w).unwrap(), original::buffer(&s, w).unwrap());
    let (mut out, mut also): (Out, Out) = ([0; 26], [0; 26]);
    let mut t = s.clone();
    all.push(Operation {
        name: format!("read {n} bits at bit {pos}"),
        theirs: calls(move || {
            b.set_raw_pos(pos);
            b.read_bits(black_box(n)).unwrap();
        }),
        ours: calls(move || ours::read_bits(&s, w, black_box(n), &mut out).unwrap()),
    });
    all.push(Operation {
        name: format!("write {n} bits at bit {pos}"),
        theirs: calls(move || {
            c.set_raw_pos(pos);
            c.write_bits(black_box(value), black_box(n));
        }),
        ours: calls(move || ours::write_bits(&mut t, w, black_box(value), black_box(n), &mut also).unwrap()),
    });
}

fn operations() -> Vec<Operation> {
    let mut all = Vec::new();
    for n in [1, 7, 24, 64] {
        bits(&mut all, n, 8);
        bits(&mut all, n, 13);
    }
    let mut null = [0u64; 25];
    null[4] = 2;
    let mut small = [0u64; 25];
    (small[4], small[5], small[7]) = (6, 1, 1);
    let mut full = small;
    (full[5], full[8]) = (5, 7);
    full[9..15].copy_from_slice(&[1, 3, 1, 4, 1, 5]);
    full[15..25].copy_from_slice(&[1, 0, 8, 3, 0, 1, 77, 0, 1, 2]);
    header(&mut all, "MAC-RESOURCE, null", Kind::Resource, &null);
    header(&mut all, "MAC-RESOURCE, SSI", Kind::Resource, &small);
    header(&mut all, "MAC-RESOURCE, all", Kind::Resource, &full);
    header(&mut all, "slot grant", Kind::Slotgrant, &[4, 1, 5]);
    header(&mut all, "channel allocation", Kind::Channel, &[0, 8, 3, 0, 1, 77, 0, 1, 2]);
    header(&mut all, "ACCESS-ASSIGN", Kind::Assign, &[3, 4, 5, 4, 6]);
    header(&mut all, "MAC-ACCESS", Kind::Access, &[0, 0, 0, 1, 1, 2, 1, 4]);
    header(&mut all, "MAC-DATA", Kind::Data, &[0, 0, 0, 1, 1, 2, 1, 4]);
    all.extend(bench_block::operations());
    all
}

pub fn run() -> bool {
    println!("{:36} {:>8} {:>8} {:>6}  {}", "nanoseconds a call", "original", "port", "ratio", "spread");
    let names: Vec<String> = operations().into_iter().map(|o| o.name).collect();
    let mut all = vec![Vec::new(); names.len()];
    let done = (0..PROCESSES).all(|_| add_runs(&mut all).is_some());
    names.iter().zip(&mut all).for_each(|(name, runs)| print(name, runs));
    done
}

/// The names of all operations; or one side of the operation of a number, so many times, for a count of instructions.
pub fn alone(which: Option<usize>, ours: bool, n: usize) -> bool {
    let mut all = operations();
    let Some(at) = which else {
        all.iter().for_each(|o| println!("{}", o.name));
        return true;
    };
    let Some(o) = all.get_mut(at) else { return false };
    (if ours { &mut o.ours } else { &mut o.theirs })(n);
    true
}
