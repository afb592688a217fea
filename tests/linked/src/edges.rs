//! Values at the edges.

/// 0, 1, either side of a limit, 2^63 and 2^64 - 1, and either side of the value that was there.
pub fn around(limit: u64, old: u64) -> [u64; 9] {
    [
        0,
        1,
        limit.wrapping_sub(1),
        limit,
        limit.wrapping_add(1),
        1 << 63,
        u64::MAX,
        old.wrapping_sub(1),
        old.wrapping_add(1),
    ]
}
