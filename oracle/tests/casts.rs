//! `CastToInt` against Rust's `as i64`: the model and the original, on a share of the patterns that `oracle/casts` gives the proved machine; and
//! that a cast which is wrong is found among the edges.
use oracle::casts::{by_machine, by_rust, compare, edges, patterns};
use oracle::machine::Machine;
use oracle::model::Model;
use oracle::original::Original;
use std::collections::HashSet;

fn casts_as_rust<M: Machine>() {
    let tally = compare(patterns(1).take(100_000), by_machine::<M>()).unwrap_or_else(|found| panic!("{found:x?}"));
    assert!(tally.nan >= 200 && tally.least >= 1, "{tally}");
    assert!(tally.below_one.min(tally.inside).min(tally.outside) >= 5000, "{tally}");
}

#[test]
fn the_model_casts_as_rust() {
    casts_as_rust::<Model>();
}

#[test]
fn the_original_casts_as_rust() {
    casts_as_rust::<Original>();
}

#[test]
fn the_edges_of_an_exponent_are_there() {
    let edges: HashSet<u64> = edges().into_iter().collect();
    // both signs; fraction 0, 1 and all ones
    for sign in [0, 1 << 63] {
        for exponent in 0..2048 {
            for fraction in [0, 1, (1 << 52) - 1] {
                assert!(edges.contains(&(sign | exponent << 52 | fraction)));
            }
        }
    }
}

/// The cast by cases, with its numbers: 1,023, 1,086 and 63 are right, and a NaN is told before its sign.
fn by_cases(pattern: u64, bias: u64, past: u64, digits: u64, nan_first: bool) -> u64 {
    let (negative, exponent, fraction) = (pattern >> 63 == 1, pattern >> 52 & 0x7ff, pattern & ((1 << 52) - 1));
    if exponent >= past {
        let nan = exponent == 2047 && fraction != 0;
        return match (nan, negative) {
            (true, false) if !nan_first => i64::MAX as u64,
            (true, _) => 0,
            (false, false) => i64::MAX as u64,
            (false, true) => i64::MIN as u64,
        };
    }
    if exponent < bias {
        return 0;
    }
    let size = (1 << 63 | fraction << 11) >> (digits + bias - exponent);
    if negative { size.wrapping_neg() } else { size }
}

#[test]
fn a_wrong_cast_is_found() {
    let found = |bias, past, digits, nan_first| {
        let cast = |patterns: &mut [u64]| patterns.iter_mut().for_each(|p| *p = by_cases(*p, bias, past, digits, nan_first));
        compare(edges().into_iter(), cast).err()
    };
    assert_eq!(found(1023, 1086, 63, true), None);
    let wrong =
        [found(1022, 1085, 63, true), found(1023, 1087, 63, true), found(1023, 1086, 62, true), found(1023, 1086, 63, false)];
    for (pattern, integer) in wrong.map(|found| found.expect("a difference")) {
        assert_ne!(integer, by_rust(pattern));
    }
}
