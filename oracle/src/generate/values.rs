//! Numbers at the edges that document 01 names, and others.
use super::rng::Rng;

/// Doubles of every sort: zeros, subnormals, halves, the edges of the casts, infinities, NaNs.
const DOUBLES: [u64; 30] = [
    0,
    0x8000_0000_0000_0000,
    1,
    0x8000_0000_0000_0001,
    0x000f_ffff_ffff_ffff,
    0x0010_0000_0000_0000,
    0x3fdf_ffff_ffff_ffff,
    0x3fe0_0000_0000_0000,
    0xbfe0_0000_0000_0000,
    0x3fef_ffff_ffff_ffff,
    0x3ff0_0000_0000_0000,
    0xbff0_0000_0000_0000,
    0x3ff8_0000_0000_0000,
    0xc004_0000_0000_0000,
    0x4024_0000_0000_0000,
    0x432f_ffff_ffff_ffff,
    0x4340_0000_0000_0000,
    0x43df_ffff_ffff_ffff,
    0x43e0_0000_0000_0000,
    0x43f0_0000_0000_0000,
    0xc3e0_0000_0000_0000,
    0xc3e0_0000_0000_0001,
    0xc3df_ffff_ffff_ffff,
    0x7fef_ffff_ffff_ffff,
    0xffef_ffff_ffff_ffff,
    0x7ff0_0000_0000_0000,
    0xfff0_0000_0000_0000,
    0x7ff8_0000_0000_0000,
    0x7ff0_0000_0000_0001,
    0xfff8_0000_0000_0000,
];

const INTS: [u64; 16] = [
    0,
    1,
    2,
    7,
    u64::MAX,
    u64::MAX - 1,
    i64::MAX as u64,
    i64::MIN as u64,
    i64::MIN as u64 + 1,
    1 << 53,
    (1 << 53) + 1,
    (1 << 53) + 3,
    (1 << 54) - 1,
    0x7fff_ffff,
    0xffff_ffff,
    0xffff_ffff_8000_0000,
];

/// About halfway between two doubles, where `CastToDouble` rounds to even.
fn halfway(rng: &mut Rng) -> u64 {
    let shift = rng.from_to(1, 10);
    let significand = 1 << 52 | rng.word() >> 12;
    let n = (significand << shift) + (1 << (shift - 1)) + rng.below(3) - 1;
    if rng.one_in(2) { n } else { n.wrapping_neg() }
}

pub fn int(rng: &mut Rng) -> u64 {
    match rng.below(5) {
        4 => halfway(rng),
        0 => *rng.one_of(&INTS),
        1 => rng.below(100).wrapping_sub(50),
        // so many bits, so that sums and products wrap now and then
        2 => rng.word() >> rng.below(64),
        _ => (rng.word() >> rng.below(64)).wrapping_neg(),
    }
}

pub fn special(rng: &mut Rng) -> u64 {
    *rng.one_of(&DOUBLES)
}

/// Any pattern.
pub fn double(rng: &mut Rng) -> u64 {
    match rng.below(3) {
        0 => special(rng),
        1 => about_the_casts(rng),
        _ => rng.word(),
    }
}

/// About where the casts change: from 1/8 up to 2^68.
pub fn about_the_casts(rng: &mut Rng) -> u64 {
    rng.word() & 0x800f_ffff_ffff_ffff | rng.from_to(1020, 1090) << 52
}

/// A finite one of moderate size, for arithmetic that should not come to a NaN.
pub fn finite(rng: &mut Rng) -> u64 {
    rng.word() & 0x800f_ffff_ffff_ffff | rng.from_to(900, 1150) << 52
}

/// `imm`: 32 bits.
pub fn imm(rng: &mut Rng) -> u32 {
    match rng.below(4) {
        0 => *rng.one_of(&[0, 1, 2, 3, 10, 100, u32::MAX, u32::MAX - 1, 0x7fff_ffff, 0x8000_0000]),
        1 => rng.below(64) as u32,
        2 => (rng.below(64) as u32).wrapping_neg(),
        _ => rng.word() as u32,
    }
}

/// Names of one length and one hash each, so that the bytes decide: for every way in which the original compares.
pub const SAME_HASH: [(&str, &str); 9] = [
    ("Yu'", "=Q4"),
    ("Ko+!", "Jf1!"),
    (")xxxt.!", "3xxx6/!"),
    ("E^!xxxx", "A/<xxxx"),
    ("Nxxxx-#!", "0xxxxc.!"),
    ("fxxxxx$#!", "Qxxxxx8(!"),
    ("kxxxxxxxxxxxx4#!", "oxxxxxxxxxxxx_/!"),
    ("Yr+!xxxxxxxxxxxx", "Ii;!xxxxxxxxxxxx"),
    ("4xxxxxxxxxxxxx.\"!", "?xxxxxxxxxxxxxB6!"),
];

/// A name: short ones often, of each length about the 8 bytes of a chunk.
pub fn name(rng: &mut Rng) -> Vec<u8> {
    if rng.one_in(10) {
        let (one, other) = *rng.one_of(&SAME_HASH);
        return if rng.one_in(2) { one } else { other }.into();
    }
    let len = match rng.below(8) {
        0 => 0,
        1..=4 => rng.from_to(1, 9),
        5 => rng.from_to(7, 18),
        6 => rng.from_to(16, 60),
        _ => rng.below(300),
    };
    // few letters, so that names come again; now and then one of two bytes in UTF-8
    let mut s = String::new();
    while (s.len() as u64) < len {
        s.push(*rng.one_of(&['a', 'b', 'c', 'd', 'e', 'f', 'g', 'h', 'o', 'l', '0', 'ä']));
    }
    s.into_bytes()
}
