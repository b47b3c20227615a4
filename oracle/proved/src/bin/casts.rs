//! `casts --cases N --seed S`: `CastToInt` of the proved machine against Rust's `as i64`.
use oracle::casts::comparison;
use proved::Proved;
use std::process::ExitCode;

fn main() -> ExitCode {
    let args: Vec<String> = std::env::args().skip(1).collect();
    let args: Vec<&str> = args.iter().map(String::as_str).collect();
    comparison::<Proved>(&args, "casts [--cases N] [--seed S]")
}
