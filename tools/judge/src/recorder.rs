//! Records answers of the original for crates/replay. It needs nothing of this port.
mod bit_calls;
mod bit_cases;
mod block_cases;
mod cases;
mod helpers;
mod kind;
mod lent_cursor;
mod live;
// where an added PDU ends is asked by the judge alone
#[allow(dead_code)]
mod model;
mod original;
mod original_only;
mod record;
mod record_block;
mod their_block;
mod values;

/// What `original` and `cases` know a kind and a window as.
mod ours {
    pub use crate::kind::Kind;

    #[derive(Clone, Copy, Debug, PartialEq, Eq)]
    pub struct Window {
        pub start: usize,
        pub pos: usize,
        pub end: usize,
    }
}

fn main() {
    // A panic of the original is an answer, and not a message.
    std::panic::set_hook(Box::new(|_| {}));
    let words: Vec<String> = std::env::args().skip(1).collect();
    let number = |at: usize, otherwise: u64| words.get(at).map_or(otherwise, |v| v.parse().expect("a number"));
    let done = match words.first().map(String::as_str) {
        Some("record") if words.len() == 2 => std::fs::write(&words[1], record::list()).map_err(|e| eprintln!("{}: {e}", words[1])).is_ok(),
        Some("calls") if words.len() > 1 => live::run(&words[1], number(2, 1_000_000), number(3, 1)),
        _ => {
            eprintln!("recorder record FILE | calls REPLAY [RANDOM [SEED]]");
            false
        }
    };
    std::process::exit(if done { 0 } else { 1 });
}
