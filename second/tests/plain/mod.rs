//! Document 01's rules put down plainly, with no thought of speed, to compare with.

use second::{now, sound, start, tick, State, LONGEST_RUN};

/// A small source of numbers.
pub struct Chance(u64);

impl Chance {
    pub fn new(seed: u64) -> Chance {
        Chance(seed)
    }

    pub fn below(&mut self, bound: u64) -> u64 {
        self.0 = self.0.wrapping_add(0x9e37_79b9_7f4a_7c15);
        let mut mixed = self.0;
        mixed = (mixed ^ (mixed >> 30)).wrapping_mul(0xbf58_476d_1ce4_e5b9);
        mixed = (mixed ^ (mixed >> 27)).wrapping_mul(0x94d0_49bb_1331_11eb);
        (mixed ^ (mixed >> 31)) % bound
    }

    /// A number, often near a bound.
    pub fn number(&mut self) -> u64 {
        let bounds = [
            0,
            1,
            3,
            16,
            100,
            280,
            1_000_000,
            1_000_000_000,
            1 << 32,
            1 << 63,
            u64::MAX,
        ];
        let bound = bounds[self.below(bounds.len() as u64) as usize];
        match self.below(3) {
            0 => bound,
            1 => bound.wrapping_add(self.below(5)),
            _ => bound.wrapping_sub(self.below(5)),
        }
    }
}

/// Rules 1 to 5 for a sound state with ticks left and lists of the right length.
fn plain_tick(state: &State, report: &[u64]) -> Option<(State, Vec<u64>)> {
    let n = state.task_count as usize;
    let h = state.great_period;
    let load: u64 = (0..n)
        .map(|i| match state.over[i] {
            true => state.run[i] * (h / state.periods[i]),
            false => state.reserves[i] * (h / state.periods[i]),
        })
        .sum();
    let level = (0..state.speed_count as usize).find(|&j| load <= state.speeds[j] * h)?;

    let mut order: Vec<(u64, usize)> = (0..n)
        .filter(|&i| !state.over[i])
        .map(|i| (state.t + state.periods[i] - state.t % state.periods[i], i))
        .collect();
    order.sort();
    let first = order.first().map(|&(deadline, i)| (i as u64 + 1, deadline));
    assert_eq!(now(state), (0, first, state.speeds[level]));

    if (0..n).any(|i| state.over[i] && report[i] != 0) {
        return None;
    }
    let mut next = *state;
    let mut grants = vec![0; n];
    let mut left = state.speeds[level];
    for (_, i) in order {
        let remaining = state.reserves[i] - state.run[i];
        match (left, report[i]) {
            (0, 0) => {}
            (0, _) => return None,
            (_, 0) => {
                grants[i] = left.min(remaining);
                next.over[i] = grants[i] == remaining;
                next.cut += u64::from(next.over[i]);
            }
            (_, u) => {
                if u <= state.run[i] || u > state.reserves[i] || u - state.run[i] > left {
                    return None;
                }
                grants[i] = u - state.run[i];
                next.over[i] = true;
            }
        }
        next.run[i] += grants[i];
        left -= grants[i];
    }
    next.counts[level] += grants.iter().sum::<u64>();
    next.idle += left;
    next.t += 1;
    for i in (0..n).filter(|&i| next.t % state.periods[i] == 0) {
        next.late += u64::from(!next.over[i]);
        next.run[i] = 0;
        next.over[i] = false;
    }
    Some((next, grants))
}

/// Tries a report on a state and compares; gives the state after it.
pub fn agrees(state: &State, chance: &mut Chance) -> State {
    let n = if state.task_count <= 16 {
        state.task_count as usize
    } else {
        3
    };
    let mut report = vec![0; n];
    if let (0, Some((task, _)), speed) = now(state) {
        // Mostly a good entry for the chosen task, at times one for any task.
        let chosen = match chance.below(10) {
            0 => chance.below(n as u64) as usize,
            _ => task as usize - 1,
        };
        if chance.below(2) == 0 {
            report[chosen] = state.run[chosen] + chance.below(speed + 2);
        }
        if chance.below(4) == 0 {
            let other = chance.below(n as u64) as usize;
            report[other] = state.run[other] + 1 + chance.below(3);
        }
    }
    let mut grants = vec![5; n];
    let (number, next) = tick(state, &report, &mut grants);
    if !sound(state) {
        assert_eq!((number, next), (9, *state));
    } else if state.t == LONGEST_RUN {
        assert_eq!((number, next), (10, *state));
    } else {
        match plain_tick(state, &report) {
            Some((expected, expected_grants)) => {
                assert_eq!((number, next), (0, expected));
                assert_eq!(grants, expected_grants);
                assert!(sound(&next));
                return next;
            }
            None => assert_eq!((number, next), (13, *state)),
        }
    }
    assert!(grants.iter().all(|&grant| grant == 5));
    next
}

/// An admitted table, started fresh.
pub fn random_start(chance: &mut Chance) -> State {
    let choices: [&[u64]; 5] = [
        &[1, 2, 3, 4, 6, 12],
        &[8, 10, 14],
        &[4],
        &[5, 10, 20, 40],
        &[7, 11],
    ];
    loop {
        let choice = choices[chance.below(5) as usize];
        let tasks = 1 + chance.below(16) as usize;
        let most = [3, 20, 500][chance.below(3) as usize];
        let periods: Vec<u64> = (0..tasks)
            .map(|_| choice[chance.below(choice.len() as u64) as usize])
            .collect();
        let reserves: Vec<u64> = (0..tasks).map(|_| 1 + chance.below(most)).collect();
        let mut speeds: Vec<u64> = (0..1 + chance.below(8))
            .map(|_| 1 + chance.below(most * 4))
            .collect();
        speeds.sort();
        speeds.dedup();
        let mut volts: Vec<u64> = speeds.iter().map(|_| 1 + chance.below(100)).collect();
        volts.sort();
        if let (0, state) = start(&periods, &reserves, &speeds, &volts) {
            return state;
        }
    }
}

/// Changes run counts and marks to other sound ones.
pub fn shake(state: &mut State, chance: &mut Chance) {
    for i in 0..state.task_count as usize {
        let reserve = state.reserves[i];
        state.over[i] = chance.below(2) == 0;
        state.run[i] = match state.over[i] {
            true => 1 + chance.below(reserve),
            false => chance.below(reserve),
        };
    }
}
