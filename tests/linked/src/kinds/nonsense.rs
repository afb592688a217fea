//! States from no run at all, and what the calls make of sound ones.

use crate::desk::Desk;
use crate::random::Random;
use crate::{reports, states};
use second::State;

/// now, energy, and several reports; then the state that the last of them gave.
fn several(random: &mut Random, state: &State, desk: &mut Desk) {
    desk.now(state);
    desk.energy(state);
    let mut next = *state;
    for _ in 0..2 {
        let report = reports::any(random, state);
        next = desk.report(state, report).1;
    }
    desk.all(&next, reports::fitting(random, &next, 2));
}

/// A state that a run reaches.
pub fn of_runs(random: &mut Random, _: usize, desk: &mut Desk) {
    let state = states::reached(random);
    several(random, &state, desk);
}

/// A sound state that no run reaches.
pub fn out_of_nothing(random: &mut Random, _: usize, desk: &mut Desk) {
    let state = states::out_of_nothing(random);
    several(random, &state, desk);
}

/// All calls on a state of any kind; on an unsound one with lists as long as it says, where that is in range.
fn each(random: &mut Random, state: &State, desk: &mut Desk) {
    if second::sound(state) {
        return several(random, state, desk);
    }
    let length = state.task_count.min(20);
    let report = (0..length).map(|_| random.any_length(u64::MAX)).collect();
    desk.all(state, report);
}

/// A state of random words.
pub fn words(random: &mut Random, _: usize, desk: &mut Desk) {
    let state = states::words(random);
    each(random, &state, desk);
}

/// A state of small numbers.
pub fn small_numbers(random: &mut Random, _: usize, desk: &mut Desk) {
    let state = states::small_numbers(random);
    each(random, &state, desk);
}

/// Random numbers in the shape of a state.
pub fn shaped(random: &mut Random, _: usize, desk: &mut Desk) {
    let state = states::shaped(random);
    each(random, &state, desk);
}
