//! Tables: lists of periods, reserves, speeds and volts that start admits, or nearly.

use crate::random::Random;
use second::{least_common_multiple, GREATEST_PERIOD, SPEEDS, TASKS};

/// The most that a period, a reserve, a speed and a volt value may be.
pub const MOST: [u64; 4] = [1_000_000, 1_000_000_000, 1_000_000, 100];

/// Prime factors; periods are products of some of them, so that the great period is at most their product.
const SHORT: [&[u64]; 4] = [&[], &[2, 3], &[2, 2, 3], &[2, 2, 2, 5, 7]];
const LONG: [&[u64]; 5] = [
    &[2, 2, 2, 3, 3, 5, 7],
    &[2, 2, 2, 2, 3, 3, 5, 7, 11, 13],
    &[2, 2, 2, 2, 2, 2, 5, 5, 5, 5, 5, 5],
    &[3, 3, 3, 7, 11, 13, 37],
    &[999_983],
];
/// These have a product just above the limit.
const TOO_LONG: [&[u64]; 3] = [
    &[2, 2, 2, 5, 5, 5, 7, 11, 13],
    &[101, 9_901],
    &[2, 2, 3, 5, 7, 7, 11, 31],
];

/// The four lists that start takes.
#[derive(Clone, Debug)]
pub struct Table {
    /// Periods, reserves, speeds and volts.
    pub lists: [Vec<u64>; 4],
}

impl Table {
    /// The great period of periods in range, where it fits 64 bits.
    fn great(&self) -> Option<u64> {
        self.lists[0]
            .iter()
            .try_fold(1, |great, &period| least_common_multiple(great, period))
    }

    /// Rule 2 before the first tick: the load, in a great period.
    fn load(&self, great: u64) -> u64 {
        let tasks = self.lists[0].iter().zip(&self.lists[1]);
        tasks
            .map(|(period, reserve)| reserve * (great / period))
            .sum()
    }

    /// Rule 7: puts the load on the line or as near below it as one reserve allows.
    pub fn to_the_line(&mut self) {
        let great = self.great().expect("the periods of a table");
        let carried = self.lists[2][self.lists[2].len() - 1] * great;
        let left = carried - self.load(great);
        let longest = (0..self.lists[0].len()).max_by_key(|&task| self.lists[0][task]);
        let task = longest.expect("a task");
        let reserve = self.lists[1][task] + left / (great / self.lists[0][task]);
        self.lists[1][task] = reserve.min(MOST[1]);
    }
}

/// A product of some of the factors that a period may be: of each one, once in so many times not.
fn product(random: &mut Random, factors: &[u64], times: usize) -> u64 {
    let mut product = 1;
    for factor in factors {
        if product * factor <= MOST[0] && !random.once_in(times) {
            product *= factor;
        }
    }
    product
}

/// Periods out of the same factors; often one of them has nearly all.
fn periods(random: &mut Random, tasks: usize, factors: &[u64]) -> Vec<u64> {
    let mut periods: Vec<u64> = (0..tasks).map(|_| product(random, factors, 2)).collect();
    if random.once_in(2) {
        let task = random.place(tasks);
        periods[task] = product(random, factors, 50);
    }
    periods
}

/// Speeds that rise strictly up to the top.
fn speeds(random: &mut Random, count: usize, top: u64) -> Vec<u64> {
    let room = top - count as u64 + 1;
    let mut speeds: Vec<u64> = (0..count).map(|_| random.between(1, room)).collect();
    speeds[0] = room;
    speeds.sort();
    let lifted = speeds.iter().enumerate();
    lifted.map(|(place, speed)| speed + place as u64).collect()
}

/// Volts that never fall.
fn volts(random: &mut Random, count: usize) -> Vec<u64> {
    let mut volts: Vec<u64> = (0..count).map(|_| random.between(1, MOST[3])).collect();
    if random.once_in(4) {
        volts[0] = MOST[3];
    }
    volts.sort();
    volts
}

/// Reserves drawn at random and scaled so that the load is at most what is given.
fn reserves(random: &mut Random, periods: &[u64], great: u64, load: u64) -> Vec<u64> {
    let jobs: Vec<u64> = periods.iter().map(|period| great / period).collect();
    let parts: Vec<u64> = periods.iter().map(|_| random.between(1, 100)).collect();
    let share = |(part, jobs): (&u64, &u64)| u128::from(part * jobs);
    let sum: u128 = parts.iter().zip(&jobs).map(share).sum();
    let over = u128::from(load.saturating_sub(jobs.iter().sum()));
    let reserve = |part: &u64| (1 + (u128::from(*part) * over / sum) as u64).min(MOST[1]);
    parts.iter().map(reserve).collect()
}

/// A table that start admits, with these factors and this top speed, which is no less than either count.
fn of(random: &mut Random, counts: (usize, usize), factors: &[u64], top: u64) -> Table {
    let periods = periods(random, counts.0, factors);
    let great = periods.iter().fold(1, |great, &period| {
        least_common_multiple(great, period).expect("a divisor of the product")
    });
    let hundredths = random.between(10, 100);
    let load = (top * great / 100).saturating_mul(hundredths);
    let reserves = reserves(random, &periods, great, load);
    let mut table = Table {
        lists: [
            periods,
            reserves,
            speeds(random, counts.1, top),
            volts(random, counts.1),
        ],
    };
    if random.once_in(3) && great <= GREATEST_PERIOD {
        table.to_the_line();
    }
    table
}

/// A table of few cycles and short periods, so that jobs last some ticks and speeds change.
pub fn small(random: &mut Random, tasks: usize, speeds: usize) -> Table {
    let factors = random.pick(&SHORT);
    let low = tasks.max(speeds) as u64;
    let top = random.between(low, low + 40);
    of(random, (tasks, speeds), factors, top)
}

/// A table with anything up to the limits.
pub fn large(random: &mut Random, tasks: usize, speeds: usize) -> Table {
    let factors = random.pick(&LONG);
    let low = tasks.max(speeds) as u64;
    let top = match random.once_in(3) {
        true => MOST[2],
        false => low + random.any_length(MOST[2] - low),
    };
    of(random, (tasks, speeds), factors, top)
}

/// A table that start admits, with so many tasks and speeds.
pub fn admitted(random: &mut Random, tasks: usize, speeds: usize) -> Table {
    match random.once_in(2) {
        true => small(random, tasks, speeds),
        false => large(random, tasks, speeds),
    }
}

/// A table that start admits, of any size.
pub fn any(random: &mut Random) -> Table {
    let (tasks, speeds) = sizes(random);
    admitted(random, tasks, speeds)
}

/// Counts of tasks and speeds; the smallest and the largest come often.
pub fn sizes(random: &mut Random) -> (usize, usize) {
    let mut size = |most: usize| match random.place(4) {
        0 => most,
        1 => 1,
        _ => 1 + random.place(most),
    };
    (size(TASKS), size(SPEEDS))
}

/// A table that passes 1 to 6, with a great period about its limit.
pub fn about_the_great_period(random: &mut Random) -> Table {
    let (tasks, speeds) = sizes(random);
    let factors = match random.once_in(3) {
        true => random.pick(&LONG),
        false => random.pick(&TOO_LONG),
    };
    of(random, (tasks, speeds), factors, MOST[2])
}
