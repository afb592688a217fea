//! Greatest common divisor and least common multiple.

/// The greatest common divisor, found by calling itself on the smaller pair.
pub fn greatest_common_divisor(a: u64, b: u64) -> u64 {
    if b == 0 {
        a
    } else {
        greatest_common_divisor(b, a % b)
    }
}

/// The least common multiple, or nothing where it does not fit 64 bits.
pub fn least_common_multiple(a: u64, b: u64) -> Option<u64> {
    match greatest_common_divisor(a, b) {
        0 => Some(0),
        divisor => (a / divisor).checked_mul(b),
    }
}
