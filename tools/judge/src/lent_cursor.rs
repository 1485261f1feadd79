//! The program of crates/lent_cursor, which reads pairs of fields on a cursor that it lends to each call, beside the original's `read_field` on one
//! buffer.
use crate::original::{self, told};
use crate::ours::Window;
use std::path::Path;
use std::process::Command;
use tetra_core::BitBuffer;

/// The program's bytes, and its pairs: the bit at which the first field begins, and how many bits each has.
const SAMPLE: [u8; 17] = [0x12, 0x34, 0x56, 0x78, 0x9a, 0xbc, 0xde, 0xf0, 0x11, 0x23, 0x45, 0x67, 0x89, 0xab, 0xcd, 0xef, 0x5a];
const PAIRS: [(usize, usize, usize); 7] = [(3, 5, 8), (3, 64, 64), (72, 64, 1), (73, 64, 1), (73, 65, 63), (136, 0, 0), (137, 0, 0)];

/// A field's value; where the original has none, or stops, this port refuses 1.
fn field(b: &mut BitBuffer, bits: usize) -> String {
    told(|| b.read_field(bits, "field").ok()).map_or("refused 1 0".to_string(), |v| format!("{v:x}"))
}

/// Where there is no such window, this port refuses 13.
fn line((pos, first, second): (usize, usize, usize)) -> String {
    let end = 8 * SAMPLE.len();
    let Some(mut b) = original::buffer(&SAMPLE, Window { start: 0, pos, end }) else {
        return format!("read_field refused 13 0 refused 13 0 <0 ^{pos} >{end}");
    };
    let (first, second) = (field(&mut b, first), field(&mut b, second));
    format!("read_field {first} {second} <{} ^{} >{}", b.get_raw_start(), b.get_raw_pos(), b.get_raw_end())
}

/// Whether the program beside the one of crates/replay writes what the original says, pair by pair.
pub fn agrees(replay: &str) -> bool {
    let program = Path::new(replay).with_file_name("lent_cursor");
    let said = Command::new(program).output().expect("the program of crates/lent_cursor").stdout;
    let said = String::from_utf8_lossy(&said);
    let theirs: Vec<String> = PAIRS.into_iter().map(line).collect();
    println!("{} pairs of fields on a lent cursor", theirs.len());
    let same = said.lines().eq(theirs.iter().map(String::as_str));
    if !same {
        println!("crates/lent_cursor writes\n{said}and the original says\n{}", theirs.join("\n"));
    }
    same
}
