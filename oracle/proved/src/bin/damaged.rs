//! `damaged --cases N --seed S`: damaged images in words, the model and the proved machine side by side.
use oracle::damaged::comparison;
use proved::Proved;
use std::process::ExitCode;

fn main() -> ExitCode {
    let args: Vec<String> = std::env::args().skip(1).collect();
    let args: Vec<&str> = args.iter().map(String::as_str).collect();
    comparison::<Proved>(&args, "damaged [--cases N] [--seed S] [--from I]")
}
