//! Cases from a seed.
mod calls;
mod damage;
mod limits;
pub mod program;
pub mod rng;
pub mod values;
mod words;

use crate::case::Case;
use crate::compare::Compared;
use rng::Rng;

/// One for this machine: with made-up states and buffers among them if it can refuse those.
pub fn case_for<M: Compared>(seed: u64, number: u64) -> Case {
    if M::REFUSES && number % 8 == 7 { made_up(seed, number) } else { case(seed, number) }
}

/// Lists in which the host hands back another state or buffer than it got: for machines that give 9 and 10, so not for the original.
pub fn made_up(seed: u64, number: u64) -> Case {
    calls::made_up(&mut Rng::of(seed, number))
}

/// A case whose first image is damaged, and the words that it is then: of one of these cases or, at times, of one that is made.
pub fn damaged_words(seed: u64, number: u64, stored: &[Case]) -> (Case, Vec<u64>) {
    let rng = &mut Rng::of(seed, number);
    let case = if rng.one_in(2) { calls::programs(rng) } else { rng.one_of(stored).clone() };
    let words = words::damaged(rng, &crate::words::write(&case.images[0]));
    (case, words)
}

/// An image's text, damaged in most cases.
pub fn text(seed: u64, number: u64) -> Vec<u8> {
    damage::text(&mut Rng::of(seed, number))
}

pub fn case(seed: u64, number: u64) -> Case {
    let rng = &mut Rng::of(seed, number);
    match rng.below(100) {
        0..55 => calls::programs(rng),
        55..75 => calls::list(rng),
        75..76 => calls::many_names(rng),
        76..87 => limits::case(rng),
        87..96 => damage::case(rng),
        // a text that the runner takes; those that it refuses are answered in tests/damaged.rs
        _ => crate::text::case(&damage::text(rng)).unwrap_or_else(|| damage::case(rng)),
    }
}
