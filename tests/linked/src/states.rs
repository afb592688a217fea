//! States: of runs, sound ones that no run reaches, and nonsense.

use crate::fields::{places, room};
use crate::random::Random;
use crate::{reports, tables};
use second::{start, tick, State, LONGEST_RUN};

/// The fresh state of a table.
pub fn fresh(table: &tables::Table) -> State {
    let [periods, reserves, speeds, volts] = &table.lists;
    let (number, state) = start(periods, reserves, speeds, volts);
    debug_assert_eq!(number, 0);
    state
}

/// The state after so many ticks, with early finishes, idle cycles and cut jobs.
pub fn after(random: &mut Random, mut state: State, ticks: u64) -> State {
    let times = random.pick(&[1, 2, 3, 8, 1_000]);
    for _ in 0..ticks {
        let report = reports::fitting(random, &state, times);
        state = tick(&state, &report, &mut vec![0; report.len()]).1;
    }
    state
}

/// A state that a run reaches.
pub fn reached(random: &mut Random) -> State {
    let table = tables::any(random);
    let ticks = random.between(0, 60);
    after(random, fresh(&table), ticks)
}

/// The same state later, by so many great periods that fewer than that are left of the longest run.
pub fn moved_on(state: &State) -> State {
    let mut late = *state;
    let left = LONGEST_RUN - state.t;
    late.t += left - left % state.great_period;
    late
}

/// Any ticks done that a sound state may have.
fn any_done(random: &mut Random) -> u64 {
    match random.place(4) {
        0 => random.between(0, 3),
        1 => LONGEST_RUN - random.between(0, 3),
        _ => random.any_length(LONGEST_RUN),
    }
}

/// A sound state that no run needs to reach: any jobs, any counts within their bounds, which they often meet.
pub fn out_of_nothing(random: &mut Random) -> State {
    let mut state = fresh(&tables::any(random));
    state.t = any_done(random);
    for task in 0..state.task_count as usize {
        any_job(random, &mut state, task);
    }
    for place in 0..state.speed_count as usize {
        state.counts[place] = up_to(random, room(&state));
    }
    state.idle = up_to(random, room(&state));
    state.late = up_to(random, 16 * state.t);
    state.cut = up_to(random, 16 * state.t);
    state
}

/// A number up to a bound, which it often is.
fn up_to(random: &mut Random, bound: u64) -> u64 {
    match random.place(4) {
        0 => bound,
        1 => bound / 2,
        _ => random.any_length(bound),
    }
}

/// A job over with 1 to its reserve run, or not over with less than its reserve.
fn any_job(random: &mut Random, state: &mut State, task: usize) {
    let over = random.once_in(2);
    let least = u64::from(over);
    let bound = state.reserves[task].saturating_sub(1);
    state.over[task] = over;
    state.run[task] = least + up_to(random, bound);
}

/// A sound state of either kind.
pub fn sound(random: &mut Random) -> State {
    match random.once_in(2) {
        true => reached(random),
        false => out_of_nothing(random),
    }
}

/// A state with each place filled.
fn filled(random: &mut Random, value: fn(&mut Random) -> u64) -> State {
    let mut state = State::default();
    for place in places() {
        place.set(&mut state, value(random));
    }
    state
}

/// Random words.
pub fn words(random: &mut Random) -> State {
    filled(random, |random| random.any_length(u64::MAX))
}

/// Small random numbers.
pub fn small_numbers(random: &mut Random) -> State {
    filled(random, |random| random.between(0, 3))
}

/// Random numbers in the shape of a state: zeros past the counts, and the great period mostly right.
pub fn shaped(random: &mut Random) -> State {
    let (tasks, speeds) = tables::sizes(random);
    let table = fresh(&tables::admitted(random, tasks, speeds));
    let mut state = filled(random, |random| random.between(0, 12));
    (state.task_count, state.speed_count) = (table.task_count, table.speed_count);
    state.t = any_done(random);
    (state.speeds, state.volts) = (table.speeds, table.volts);
    (state.great_period, state.periods) = (table.great_period, table.periods);
    if !random.once_in(4) {
        state.reserves = table.reserves;
    }
    if random.once_in(8) {
        state.great_period = random.between(1, 12);
    }
    for task in 0..tasks {
        if !random.once_in(16) {
            any_job(random, &mut state, task);
        }
    }
    emptied(&mut state, tasks, speeds);
    state
}

/// Zeros past the counts.
fn emptied(state: &mut State, tasks: usize, speeds: usize) {
    for list in [&mut state.periods, &mut state.reserves, &mut state.run] {
        list[tasks..].fill(0);
    }
    state.over[tasks..].fill(false);
    for list in [&mut state.speeds, &mut state.volts, &mut state.counts] {
        list[speeds..].fill(0);
    }
}

#[cfg(test)]
mod tests {
    use super::*;

    #[test]
    fn states_that_are_called_sound_are() {
        for round in 0..2_000 {
            let mut random = Random::of(7, 1, round);
            let state = sound(&mut random);
            assert!(second::sound(&state), "{state:?}");
            let late = moved_on(&state);
            assert!(second::sound(&late), "{late:?}");
            assert!(LONGEST_RUN - late.t < late.great_period);
        }
    }

    /// Among the shaped states there are sound and unsound ones.
    #[test]
    fn shapes_are_not_all_alike() {
        let mut random = Random::of(7, 2, 0);
        let sound = (0..2_000).filter(|_| second::sound(&shaped(&mut random)));
        let count = sound.count();
        assert!((400..1_600).contains(&count), "{count}");
    }
}
