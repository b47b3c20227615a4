//! The comparison of generated cases as a command: a tally, or the smallest input that shows a difference.
use crate::case::Case;
use crate::compare::{Compared, Counts, Outcome, Tally, compare};
use crate::generate;
use crate::guard::{self, Ended, Shared};
use crate::shrink::shrink;
use std::fmt::Display;
use std::process::ExitCode;

/// `--cases N --seed S --from I`: so many cases of a seed, from one on.
pub struct Options {
    pub cases: u64,
    pub seed: u64,
    pub from: u64,
}

impl Options {
    /// `None` where they are others.
    pub fn read(options: &[&str]) -> Option<Self> {
        let mut read = Self { cases: 100_000, seed: 1, from: 0 };
        for option in options.chunks(2) {
            let number = option.get(1)?.parse().ok()?;
            match option[0] {
                "--cases" => read.cases = number,
                "--seed" => read.seed = number,
                "--from" => read.from = number,
                _ => return None,
            }
        }
        Some(read)
    }
}

/// Generated cases, the model and another machine side by side.
pub fn comparison<M: Compared>(options: &[&str], usage: &str) -> ExitCode {
    let Some(options) = Options::read(options) else {
        eprintln!("{usage}");
        return ExitCode::from(2);
    };
    let case = |number| generate::case_for::<M>(options.seed, number);
    match in_turn(&options, M::NAME, |tally: &mut Tally, number| tally.add::<M>(&case(number))) {
        None => ExitCode::SUCCESS,
        Some(number) => {
            smallest::<M>(case(number));
            ExitCode::FAILURE
        }
    }
}

/// The cases in turn, and the tally printed; or the number of one in which the machines differ, or that goes wrong.
pub fn in_turn<T: Default + Display>(
    options: &Options,
    other: &str,
    mut add: impl FnMut(&mut T, u64) -> Result<(), String>,
) -> Option<u64> {
    let Options { cases, seed, from } = *options;
    // in a child, which tells at which case it is: see `guard`
    let now = Shared::new();
    let ended = guard::child(|| {
        let mut tally = T::default();
        for number in from..from + cases {
            now.set(number);
            guard::seconds(20);
            if let Err(what) = add(&mut tally, number) {
                println!("{tally}\nseed {seed}, case {number}: the model and {other} differ: {what}");
                return DIFFERS;
            }
        }
        print!("{tally}");
        0
    });
    match ended {
        Ended::Exit(0) => return None,
        Ended::Exit(DIFFERS) => {}
        Ended::Exit(status) => println!("seed {seed}, case {}: ends with status {status}", now.get()),
        Ended::Signal(signal) => println!("seed {seed}, case {}: {other} dies by signal {signal}", now.get()),
    }
    Some(now.get())
}

const DIFFERS: u8 = 1;

/// Prints the smallest input found that still shows a difference.
fn smallest<M: Compared>(case: Case) {
    let differs = |case: &Case| match compare::<M>(case, &mut Counts::default()) {
        Outcome::Differs(what) => Some(what),
        _ => None,
    };
    let fails = |case: &Case| {
        let ended = guard::child(|| {
            guard::seconds(1);
            std::panic::set_hook(Box::new(|_| {}));
            u8::from(differs(case).is_some())
        });
        !matches!(ended, Ended::Exit(0))
    };
    let case = shrink(case, fails);
    println!("the smallest input that shows it:\n{case}");
    guard::child(|| {
        guard::seconds(1);
        println!("{}", differs(&case).unwrap_or_default());
        0
    });
}
