//! The proved machine against the original, in one process and in turn: nanoseconds, the least of many repeats.
//!
//!     bench steps REPEATS    of each program its name, nanoseconds a step of the original and of the machine here, a program a line
//!     bench one ROW STEPS    one run of that program by the machine here, about STEPS long, for whoever counts its instructions. Prints its steps
//!     bench names            interning, as tables
mod names;
mod programs;
mod steps;

/// Where the heap lies.
const BASE: u64 = 0x1000_0000;

fn main() {
    let words: Vec<String> = std::env::args().skip(1).collect();
    let number = |i: usize| words.get(i).and_then(|w| w.parse::<u64>().ok());
    match (words.first().map(String::as_str), number(1), number(2)) {
        (Some("steps"), Some(repeats), None) => steps::timed_rows(repeats),
        (Some("one"), Some(row), Some(count)) => steps::one(row as usize, count),
        (Some("names"), None, None) => names::tables(),
        _ => {
            eprintln!("usage: bench steps REPEATS | bench one ROW STEPS | bench names");
            std::process::exit(2);
        }
    }
}
