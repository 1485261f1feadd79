//! The original as judge: a live comparison and a benchmark, over the bindings of this port.
mod altered;
mod bench;
mod bench_block;
mod block;
mod block_cases;
mod blocks;
mod bound;
mod case;
mod cases;
mod compare;
mod demand3;
mod kind;
mod model;
mod names;
mod original;
mod ours;
mod runs;
mod sweep;
mod sweep_block;
mod their_block;

fn number(words: &[String], at: usize, otherwise: u64) -> u64 {
    words.get(at).map_or(otherwise, |v| v.parse().expect("a number"))
}

fn main() {
    let words: Vec<String> = std::env::args().skip(1).collect();
    // A panic of the original is an answer, and not a message.
    std::panic::set_hook(Box::new(|_| {}));
    let done = match words.first().map(String::as_str) {
        Some("compare") => compare::run(number(&words, 1, 10_000_000), number(&words, 2, 1)),
        Some("bench") => bench::run(),
        Some("runs") => bench::runs(),
        Some("alone") => bench::alone(words.get(1).map(|_| number(&words, 1, 0) as usize), words.get(2).is_some_and(|v| v == "port"), number(&words, 3, 1) as usize),
        _ => {
            eprintln!("judge compare [CASES [SEED]] | bench | runs | alone [OPERATION original|port CALLS]");
            false
        }
    };
    std::process::exit(if done { 0 } else { 1 });
}
