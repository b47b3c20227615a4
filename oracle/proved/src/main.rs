//! `proved --cases N --seed S`: generated cases, the model and the proved machine side by side.
use oracle::comparison::comparison;
use proved::Proved;
use std::process::ExitCode;

fn main() -> ExitCode {
    let args: Vec<String> = std::env::args().skip(1).collect();
    let args: Vec<&str> = args.iter().map(String::as_str).collect();
    comparison::<Proved>(&args, "proved [--cases N] [--seed S] [--from I]")
}
