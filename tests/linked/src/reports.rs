//! Reports that rule 4 accepts, and others.

use crate::edges;
use crate::random::Random;
use second::{now, State, TASKS};

/// The places of the ready tasks in the order of rule 3.
fn order(state: &State) -> Vec<usize> {
    let tasks = 0..state.task_count as usize;
    let mut ready: Vec<usize> = tasks.filter(|&task| !state.over[task]).collect();
    // Rule 1: the deadline is so many ticks away.
    let away = |task: usize| state.periods[task] - state.t % state.periods[task];
    ready.sort_by_key(|&task| (away(task), task));
    ready
}

/// A report that rule 4 accepts of a sound state; of the jobs reached, once in so many one finishes.
pub fn fitting(random: &mut Random, state: &State, times: usize) -> Vec<u64> {
    let (number, _, mut left) = now(state);
    let mut report = vec![0; (state.task_count as usize).min(TASKS)];
    if number != 0 {
        return report;
    }
    for task in order(state) {
        if left == 0 {
            break;
        }
        let most = left.min(state.reserves[task] - state.run[task]);
        let finishes = random.once_in(times);
        let granted = match finishes {
            true => random.between(1, most),
            false => most,
        };
        if finishes {
            report[task] = state.run[task] + granted;
        }
        left -= granted;
    }
    report
}

/// The entries at the edges of what rule 4 accepts of a task: about its run count, its reserve and the tick's speed.
pub fn edges_of(state: &State, task: usize, left: u64) -> Vec<u64> {
    let (run, reserve) = (state.run[task], state.reserves[task]);
    let mut entries = edges::around(reserve, run).to_vec();
    let reached = run.saturating_add(left);
    entries.extend([
        run,
        reached.saturating_sub(1),
        reached,
        reached.saturating_add(1),
    ]);
    entries.sort();
    entries.dedup();
    entries
}

/// A fitting report with one entry changed; rule 4 accepts few of them.
pub fn unfit(random: &mut Random, state: &State) -> Vec<u64> {
    let mut report = fitting(random, state, 3);
    if !report.is_empty() {
        let task = random.place(report.len());
        let (_, _, speed) = now(state);
        let left = random.between(0, speed);
        let entries = edges_of(state, task, left);
        report[task] = random.pick(&entries);
    }
    report
}

/// A report of any kind.
pub fn any(random: &mut Random, state: &State) -> Vec<u64> {
    match random.place(4) {
        0 => unfit(random, state),
        1 => fitting(random, state, 1),
        2 => fitting(random, state, 2),
        _ => fitting(random, state, 5),
    }
}

#[cfg(test)]
mod tests {
    use super::*;
    use crate::states;
    use second::{sound, tick};

    /// What is called fitting is accepted.
    #[test]
    fn fitting_reports_are_accepted() {
        for round in 0..2_000 {
            let mut random = Random::of(7, 0, round);
            let mut state = states::out_of_nothing(&mut random);
            state.t = state.t.min(second::LONGEST_RUN - 1);
            if sound(&state) {
                let report = fitting(&mut random, &state, 2);
                let mut grants = vec![0; report.len()];
                assert_eq!(
                    tick(&state, &report, &mut grants).0,
                    0,
                    "{state:?} {report:?}"
                );
            }
        }
    }
}
