//! `CastToInt` against Rust's `as i64`, pattern by pattern: a machine casts 32 of them in a run, one to a register.
use crate::comparison::Options;
use crate::generate::program::word;
use crate::generate::rng::Rng;
use crate::generate::values;
use crate::image::Image;
use crate::machine::{Answer, Call, Lent, Machine, PAGE};
use crate::model::value::is_nan;
use crate::model::word::op;
use std::fmt;
use std::process::ExitCode;

const REGISTERS: usize = 32;
const SIGN: u64 = 1 << 63;
const FRACTION: u64 = (1 << 52) - 1;

fn pattern(exponent: u64, fraction: u64) -> u64 {
    exponent << 52 | fraction
}

/// Of 2^k, from 2^-1074 to 2^1023.
fn power(k: i64) -> u64 {
    if k < -1022 { 1 << (k + 1074) } else { pattern((k + 1023) as u64, 0) }
}

/// Where a cast can be got wrong, each without a sign and with it.
pub fn edges() -> Vec<u64> {
    let of_exponents = (0..2048).flat_map(|e| [0, 1, FRACTION].map(|t| pattern(e, t)));
    let of_powers = (-1074..1024).map(power).flat_map(|p| [p - 1, p, p + 1]);
    // beside a power of two as numbers: a half and one apart
    let beside = (0..64).flat_map(|k| [-1.0, -0.5, 0.5, 1.0].map(|d| (2f64.powi(k) + d).to_bits()));
    // one digit of the fraction, and all below it: of subnormals, of all that is not 0 nor past the range, of NaNs
    let around = [0, 2047].into_iter().chain(1022..1087);
    let of_digits = around.flat_map(|e| (0..52).flat_map(move |d| [1 << d, (1 << d) - 1].map(|t| pattern(e, t))));
    let without = of_exponents.chain(of_powers).chain(beside).chain(of_digits);
    without.flat_map(|p| [p & !SIGN, p | SIGN]).collect()
}

/// The edges, and behind them any pattern and, as often, one about where the cast changes.
pub fn patterns(seed: u64) -> impl Iterator<Item = u64> {
    let mut rng = Rng::of(seed, 0);
    let more = std::iter::repeat_with(move || if rng.one_in(2) { rng.word() } else { values::about_the_casts(&mut rng) });
    edges().into_iter().chain(more)
}

pub fn by_rust(pattern: u64) -> u64 {
    f64::from_bits(pattern) as i64 as u64
}

/// What the patterns were, by the cases of the cast.
#[derive(Default)]
pub struct Tally {
    pub below_one: u64,
    pub inside: u64,
    pub outside: u64,
    pub nan: u64,
    pub least: u64,
}

impl Tally {
    fn add(&mut self, pattern: u64) {
        let count = match pattern >> 52 & 0x7ff {
            0..1023 => &mut self.below_one,
            1023..1086 => &mut self.inside,
            _ if is_nan(pattern) => &mut self.nan,
            _ if pattern == 0xc3e0_0000_0000_0000 => &mut self.least,
            _ => &mut self.outside,
        };
        *count += 1;
    }
}

impl fmt::Display for Tally {
    fn fmt(&self, f: &mut fmt::Formatter<'_>) -> fmt::Result {
        let Self { below_one, inside, outside, nan, least } = self;
        writeln!(f, "{} patterns cast as Rust does", below_one + inside + outside + nan + least)?;
        writeln!(f, "exponents below 1,023: {below_one}; from 1,023 to 1,085: {inside}")?;
        writeln!(f, "from 1,086 on: {nan} NaNs, {least} times -2^63, {outside} others")
    }
}

/// `cast` puts an integer in the place of each of up to 32 patterns; `Err` is the first one that it casts otherwise than Rust, and its integer.
pub fn compare(patterns: impl Iterator<Item = u64>, mut cast: impl FnMut(&mut [u64])) -> Result<Tally, (u64, u64)> {
    let mut tally = Tally::default();
    let mut patterns = patterns.peekable();
    while patterns.peek().is_some() {
        let given: Vec<u64> = patterns.by_ref().take(REGISTERS).collect();
        let mut cast_to = given.clone();
        cast(&mut cast_to);
        for (&pattern, &integer) in given.iter().zip(&cast_to) {
            if integer != by_rust(pattern) {
                return Err((pattern, integer));
            }
            tally.add(pattern);
        }
    }
    Ok(tally)
}

/// The cast of a machine, by runs of a program that casts each register in its place.
pub fn by_machine<M: Machine>() -> impl FnMut(&mut [u64]) {
    let each = (0..REGISTERS as u64).map(|r| word(op::CastToInt, r, r, 0, 0));
    let images = [Image { code: each.chain([op::Halt.into()]).collect(), ..Image::default() }];
    let lent = Lent { base: 0x1000_0000, heap: PAGE, frames: 1, slots: 64, spare: 64, fill: 0 };
    let mut machine = M::start(lent, &images[0]).unwrap_or_else(|number| panic!("the start is refused by {number}"));
    move |patterns| {
        for (register, &value) in (0..).zip(&*patterns) {
            machine.call(&images, &Call::SetRegister { register, value });
        }
        machine.call(&images, &Call::SetPc(0));
        let answer = machine.call(&images, &Call::Run { image: 0, budget: 100 });
        assert!(matches!(answer, Answer::End { number: 0, .. }), "{answer:?}");
        patterns.copy_from_slice(&machine.view().regs[..patterns.len()]);
    }
}

/// So many patterns of a seed, by a machine.
pub fn comparison<M: Machine>(options: &[&str], usage: &str) -> ExitCode {
    let Some(Options { cases, seed, from: 0 }) = Options::read(options) else {
        eprintln!("{usage}");
        return ExitCode::from(2);
    };
    match compare(patterns(seed).take(cases as usize), by_machine::<M>()) {
        Ok(tally) => {
            print!("{tally}");
            ExitCode::SUCCESS
        }
        Err((pattern, integer)) => {
            println!("seed {seed}: CastToInt of {pattern:016x} gives {integer:016x}, Rust gives {:016x}", by_rust(pattern));
            ExitCode::FAILURE
        }
    }
}
