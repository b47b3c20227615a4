//! `oracle report FILE`, `oracle rust FILE`, `oracle compare --cases N --seed S`.
use oracle::compare::{Aside, Counts, Outcome, compare};
use oracle::comparison::comparison;
use oracle::machine::{Answer, Call, Machine};
use oracle::model::Model;
use oracle::original::Original;
use oracle::text;
use std::fmt::Display;
use std::process::ExitCode;

const USAGE: &str = "\
oracle report FILE        the image runner's report, by the model
oracle rust FILE          the same by the original; status 3 where its conditions are not kept, 4 where the system does not
                          give the heap's addresses
oracle compare [--cases N] [--seed S] [--from I]
                          generated cases, the model and the original side by side
FILE is an image's text, - for standard input";

const ASIDE: u8 = 3;
const NOT_MAPPED: u8 = 4;

fn main() -> ExitCode {
    let args: Vec<String> = std::env::args().skip(1).collect();
    let args: Vec<&str> = args.iter().map(String::as_str).collect();
    match args[..] {
        ["report", file] => input(file).map_or(ExitCode::from(2), |input| {
            print!("{}", text::report::<Model>(&input));
            ExitCode::SUCCESS
        }),
        ["rust", file] => input(file).map_or(ExitCode::from(2), |input| by_the_original(&input)),
        ["compare", ref options @ ..] => comparison::<Original>(options, USAGE),
        _ => {
            eprintln!("{USAGE}");
            ExitCode::from(2)
        }
    }
}

fn input(file: &str) -> Option<Vec<u8>> {
    let read = if file == "-" {
        let mut bytes = Vec::new();
        std::io::Read::read_to_end(&mut std::io::stdin(), &mut bytes).map(|_| bytes)
    } else {
        std::fs::read(file)
    };
    read.map_err(|error| eprintln!("oracle: {file}: {error}")).ok()
}

/// The report, by the original alone but for the steps, which it does not count.
fn by_the_original(input: &[u8]) -> ExitCode {
    let not_run = |why: &dyn Display, status: u8| {
        eprintln!("oracle: not run in the Rust: {why}");
        ExitCode::from(status)
    };
    let Some(case) = text::case(input) else {
        return not_run(&format!("the runner refuses the image, {}", text::report::<Model>(input).trim_end()), ASIDE);
    };
    match compare::<Original>(&case, &mut Counts::default()) {
        Outcome::Same => {}
        Outcome::Aside(why) => return not_run(&why, if why == Aside::NotMapped { NOT_MAPPED } else { ASIDE }),
        Outcome::Differs(what) => {
            eprintln!("oracle: the model and the Rust differ: {what}");
            return ExitCode::FAILURE;
        }
    }
    let run = |machine: &mut dyn FnMut(&Call) -> Answer| case.calls.iter().map(machine).last();
    let mut model = Model::start(case.lent, &case.images[0]).expect("it was started before");
    let mut original = Original::lend(case.lent).expect("it was started before");
    let counted = run(&mut |call| model.call(&case.images, call));
    let told = run(&mut |call| original.call(&case.images, call));
    let (Some(Answer::End { number, pc, .. }), Some(Answer::End { steps, .. })) = (told, counted) else {
        unreachable!("the last call is a run");
    };
    print!("{}", text::printed(&original, Answer::End { number, pc, steps }));
    ExitCode::SUCCESS
}
