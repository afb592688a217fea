//! Tables that start admits.

use crate::draft::{great_period, Draft, Number};
use crate::random::Random;

/// The most that a period and the great period may be.
pub const LONGEST_PERIOD: Number = 1_000_000;
/// The most that a reserve may be.
pub const LARGEST_RESERVE: Number = 1_000_000_000;
/// The most that a speed may be.
pub const TOP_SPEED: Number = 1_000_000;
/// The most that a volt value may be.
pub const MOST_VOLTS: Number = 100;

/// Short, medium or long in equal share: 1 to 10, 10 to 100, 100 to 1,000.
fn three_ranges(random: &mut Random) -> Number {
    let low = random.pick(&[1, 10, 100]);
    random.between(low, 10 * low)
}

/// Periods after the paper's recipe, in ticks of 1 or 10 ms; the great period keeps its limit.
fn paper_periods(random: &mut Random, count: usize) -> Vec<Number> {
    let tick = random.pick(&[1, 10, 10]);
    let mut periods = Vec::new();
    while periods.len() < count {
        periods.push((three_ranges(random) / tick).max(1));
        let mut tries = 0;
        while great_period(&periods) > LONGEST_PERIOD {
            tries += 1;
            periods.pop();
            let again = match tries {
                ..20 => (three_ranges(random) / tick).max(1),
                _ => random.pick(&periods),
            };
            periods.push(again);
        }
    }
    periods
}

/// Speeds that rise strictly up to the top, with volts that never fall.
pub fn rising_speeds(random: &mut Random, count: usize, top: Number) -> Vec<(Number, Number)> {
    let mut speeds = vec![top];
    for _ in 1..count {
        speeds.push(random.between(1, top));
    }
    speeds.sort();
    speeds.dedup();
    let mut volts: Vec<Number> = speeds
        .iter()
        .map(|_| random.between(1, MOST_VOLTS))
        .collect();
    volts.sort();
    speeds.into_iter().zip(volts).collect()
}

/// 0.5, 0.75 and 1.0 at 3, 4 and 5 volts, or speeds drawn at random.
fn paper_speeds(random: &mut Random) -> Vec<(Number, Number)> {
    let scale = random.pick(&[1, 1, 10, 100, 10_000]);
    if random.once_in(3) {
        let count = random.between(1, 8) as usize;
        return rising_speeds(random, count, 100 * scale);
    }
    vec![(50 * scale, 30), (75 * scale, 40), (100 * scale, 50)]
}

/// Reserves drawn at random and scaled so that the load comes near, never past, what is given.
fn scaled_reserves(random: &mut Random, periods: &[Number], load: Number) -> Vec<Number> {
    let great = great_period(periods);
    let ones: Number = periods.iter().map(|period| great / period).sum();
    let parts: Vec<Number> = periods.iter().map(|_| three_ranges(random)).collect();
    let sum: Number = periods
        .iter()
        .zip(&parts)
        .map(|(period, part)| part * (great / period))
        .sum();
    let reserve = |part: Number| (1 + part * load.saturating_sub(ones) / sum).min(LARGEST_RESERVE);
    parts.into_iter().map(reserve).collect()
}

/// A table of these periods and speeds whose load is about so many hundredths of what top speed carries.
pub fn table(
    random: &mut Random,
    periods: &[Number],
    speeds: Vec<(Number, Number)>,
    hundredths: Number,
) -> Draft {
    let carried = speeds[speeds.len() - 1].0 * great_period(periods);
    let reserves = scaled_reserves(random, periods, carried * hundredths / 100);
    let tasks = periods.iter().copied().zip(reserves).collect();
    Draft::of(tasks, speeds, 0)
}

/// A table after the paper's recipe, with a load from a tenth to all of what top speed carries.
pub fn paper_table(random: &mut Random, count: usize) -> Draft {
    let periods = paper_periods(random, count);
    let speeds = paper_speeds(random);
    let hundredths = random.between(10, 100);
    table(random, &periods, speeds, hundredths)
}

/// A table of few tasks, short periods and low speeds, so that jobs last several ticks.
pub fn small_table(random: &mut Random) -> Draft {
    let count = random.between(1, 5) as usize;
    let periods: Vec<Number> = (0..count).map(|_| random.between(1, 12)).collect();
    let top = random.between(count as Number, 40);
    let choices = random.between(1, 4) as usize;
    let speeds = rising_speeds(random, choices, top);
    let hundredths = random.between(40, 100);
    table(random, &periods, speeds, hundredths)
}
