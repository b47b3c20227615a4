//! Casts worked out from the pattern, and doubles with one NaN.

pub const NAN: u64 = 0x7ff8_0000_0000_0000;

pub fn is_nan(pattern: u64) -> bool {
    pattern << 1 > 0x7ff0_0000_0000_0000 << 1
}

/// 'one NaN pattern, 7ff8000000000000h, for a NaN result'
pub fn double(l: u64, r: u64, operation: fn(f64, f64) -> f64) -> u64 {
    let result = operation(f64::from_bits(l), f64::from_bits(r)).to_bits();
    if is_nan(result) { NAN } else { result }
}

/// Toward zero, to the end of the range beyond it, 0 for a NaN.
pub fn cast_to_int(pattern: u64) -> u64 {
    let exponent = (pattern >> 52 & 0x7ff) as i64;
    let negative = pattern >> 63 == 1;
    let significand = (pattern & ((1 << 52) - 1)) | 1 << 52;
    let magnitude = match exponent {
        0..1023 => 0,
        1023..1086 => ((significand as u128) << (exponent - 1023) >> 52) as u64,
        _ if is_nan(pattern) => return 0,
        _ if negative => return i64::MIN as u64,
        _ => return i64::MAX as u64,
    };
    if negative { magnitude.wrapping_neg() } else { magnitude }
}

/// The nearest double, ties to the even one.
pub fn cast_to_double(pattern: u64) -> u64 {
    if pattern == 0 {
        return 0;
    }
    let sign = pattern >> 63 << 63;
    let magnitude = (pattern as i64).unsigned_abs();
    let top = 63 - u64::from(magnitude.leading_zeros());
    let significand = if top <= 52 {
        magnitude << (52 - top)
    } else {
        let shift = top - 52;
        let rest = magnitude & ((1 << shift) - 1);
        let half = 1 << (shift - 1);
        let cut = magnitude >> shift;
        let up = rest > half || (rest == half && cut & 1 == 1);
        cut + u64::from(up)
    };
    // a carry out of the 53 bits goes into the exponent
    sign | (((top + 1023) << 52) + (significand - (1 << 52)))
}
