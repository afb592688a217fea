//! The four calls: start, now, tick, energy.

use crate::course::Course;
use crate::state::{sound, State};
use crate::table::{great_period, LONGEST_RUN, TASKS};

/// Makes a state: number 0 with it, or 1 to 8 with the all-zero state.
pub fn start(periods: &[u64], reserves: &[u64], speeds: &[u64], volts: &[u64]) -> (u64, State) {
    let mut state = State::default();
    match great_period(periods, reserves, speeds, volts) {
        Err(number) => (number, state),
        Ok(great) => {
            state.task_count = periods.len() as u64;
            state.great_period = great;
            state.periods[..periods.len()].copy_from_slice(periods);
            state.reserves[..reserves.len()].copy_from_slice(reserves);
            state.speed_count = speeds.len() as u64;
            state.speeds[..speeds.len()].copy_from_slice(speeds);
            state.volts[..volts.len()].copy_from_slice(volts);
            (0, state)
        }
    }
}

/// Rule 3: number 0, the chosen task (from 1) with its deadline or none, and the speed.
/// Refused with 9, 10 or 12: no task and speed 0.
pub fn now(state: &State) -> (u64, Option<(u64, u64)>, u64) {
    if !sound(state) {
        return (9, None, 0);
    }
    if state.t == LONGEST_RUN {
        return (10, None, 0);
    }
    let Some(place) = state.carrier(state.load()) else {
        return (12, None, 0);
    };
    let mut chosen: Option<(u64, u64)> = None;
    for task in (0..state.task_count as usize).filter(|&task| !state.over[task]) {
        let deadline = state.deadline(task);
        // A tie stays with the lower number.
        if chosen.is_none_or(|(_, earliest)| deadline < earliest) {
            chosen = Some((task as u64 + 1, deadline));
        }
    }
    (0, chosen, state.speeds[place])
}

/// Rules 3 to 5: settles a report. Number 0, the next state, and every place of the
/// grants list written; or 9 to 13, the same state, and none written.
pub fn tick(state: &State, report: &[u64], grants: &mut [u64]) -> (u64, State) {
    if !sound(state) {
        return (9, *state);
    }
    if state.t == LONGEST_RUN {
        return (10, *state);
    }
    let tasks = state.task_count as usize;
    if report.len() != tasks || grants.len() != tasks {
        return (11, *state);
    }
    let mut entries = [0; TASKS];
    entries[..tasks].copy_from_slice(report);
    let finishes = report.iter().filter(|&&entry| entry != 0).count();

    let mut course = Course::of(state);
    match course.tick(&entries, finishes) {
        Ok(settled) => {
            grants.copy_from_slice(&settled.grants[..tasks]);
            (0, *course.state())
        }
        Err(number) => (number, *state),
    }
}

/// Rule 6: number 0 and the energy a state has used, or 9 and 0.
pub fn energy(state: &State) -> (u64, u64) {
    if sound(state) {
        (0, state.spent())
    } else {
        (9, 0)
    }
}

#[cfg(test)]
mod tests {
    use super::*;

    /// Document 01, "Either side of the line", (b) to (h).
    #[test]
    fn loads_of_the_printed_run() {
        let ends = [
            (2, 0, 200),
            (3, 1, 100),
            (5, 2, 100),
            (9, 0, 100),
            (11, 1, 100),
            (15, 2, 100),
        ];
        let loads = [
            (0, 20_900),
            (3, 17_400),
            (4, 11_800),
            (8, 15_300),
            (10, 13_900),
            (12, 8_300),
            (14, 8_300),
        ];
        let (_, mut state) = start(
            &[8, 10, 14],
            &[300, 300, 100],
            &[50, 75, 100],
            &[30, 40, 50],
        );
        for t in 0..16 {
            for (_, load) in loads.iter().filter(|(at, _)| *at == t) {
                assert_eq!(state.load(), *load, "tick {t}");
            }
            let mut report = [0; 3];
            for (_, task, cycles) in ends.iter().filter(|(at, ..)| *at == t) {
                report[*task] = *cycles;
            }
            let (number, next) = tick(&state, &report, &mut [0; 3]);
            assert_eq!(number, 0);
            state = next;
        }
    }
}
