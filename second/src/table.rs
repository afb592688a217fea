//! The tables of a governor: what is allowed, and numbers 1 to 8.

use crate::numbers::least_common_multiple;

/// The most tasks.
pub const TASKS: usize = 16;
/// The most speeds.
pub const SPEEDS: usize = 8;
/// The greatest great period, in ticks.
pub const GREATEST_PERIOD: u64 = 1_000_000;
/// The most ticks in one run.
pub const LONGEST_RUN: u64 = 1_000_000_000;

const PERIOD: std::ops::RangeInclusive<u64> = 1..=1_000_000;
const RESERVE: std::ops::RangeInclusive<u64> = 1..=1_000_000_000;
const SPEED: std::ops::RangeInclusive<u64> = 1..=1_000_000;
const VOLTS: std::ops::RangeInclusive<u64> = 1..=100;

/// The great period of tables that pass 1 to 8, or the smallest number that applies.
pub fn great_period(
    periods: &[u64],
    reserves: &[u64],
    speeds: &[u64],
    volts: &[u64],
) -> Result<u64, u64> {
    in_range(periods, reserves, speeds, volts)?;
    // A multiple above the bound stays above it, so the first one decides.
    let mut great = 1;
    for &period in periods {
        great = match least_common_multiple(great, period) {
            Some(multiple) if multiple <= GREATEST_PERIOD => multiple,
            _ => return Err(7),
        };
    }
    // Rule 7. At most 16 x 10^9 x 10^6 on the left and 10^12 on the right: both fit.
    let load: u64 = periods
        .iter()
        .zip(reserves)
        .map(|(period, reserve)| reserve * (great / period))
        .sum();
    if load > speeds[speeds.len() - 1] * great {
        return Err(8);
    }
    Ok(great)
}

/// Numbers 1 to 6: how many, in which range, and in which order.
fn in_range(periods: &[u64], reserves: &[u64], speeds: &[u64], volts: &[u64]) -> Result<(), u64> {
    if periods.is_empty() || periods.len() > TASKS || reserves.len() != periods.len() {
        return Err(1);
    }
    if speeds.is_empty() || speeds.len() > SPEEDS || volts.len() != speeds.len() {
        return Err(2);
    }
    if !periods.iter().all(|period| PERIOD.contains(period)) {
        return Err(3);
    }
    if !reserves.iter().all(|reserve| RESERVE.contains(reserve)) {
        return Err(4);
    }
    if !speeds.iter().all(|speed| SPEED.contains(speed))
        || speeds.windows(2).any(|pair| pair[1] <= pair[0])
    {
        return Err(5);
    }
    if !volts.iter().all(|volt| VOLTS.contains(volt))
        || volts.windows(2).any(|pair| pair[1] < pair[0])
    {
        return Err(6);
    }
    Ok(())
}
