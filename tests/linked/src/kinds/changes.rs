//! Sound states with places changed.

use crate::desk::Desk;
use crate::fields::places;
use crate::random::Random;
use crate::{reports, states};
use second::State;

/// Each place of a state with each of its edge values.
fn one(random: &mut Random, state: &State, desk: &mut Desk) {
    desk.all(state, reports::fitting(random, state, 2));
    for (number, place) in places().into_iter().enumerate() {
        desk.changed(Some(number));
        for value in place.edges(state) {
            let mut changed = *state;
            place.set(&mut changed, value);
            let report = report_of(random, &changed, state);
            desk.all(&changed, report);
        }
    }
    desk.changed(None);
}

/// A report for a changed state: one that fits it, or the state that it was made of.
fn report_of(random: &mut Random, changed: &State, state: &State) -> Vec<u64> {
    match second::sound(changed) {
        true => reports::fitting(random, changed, 2),
        false => vec![0; state.task_count as usize],
    }
}

/// One place changed in a state that a run reaches.
pub fn one_of_a_run(random: &mut Random, _: usize, desk: &mut Desk) {
    let state = states::reached(random);
    one(random, &state, desk);
}

/// One place changed in a sound state of any kind.
pub fn one_of_any(random: &mut Random, _: usize, desk: &mut Desk) {
    let state = states::out_of_nothing(random);
    one(random, &state, desk);
}

/// Two or three places changed.
pub fn some(random: &mut Random, _: usize, desk: &mut Desk) {
    let state = states::sound(random);
    let mut changed = state;
    for _ in 0..random.between(2, 3) {
        let place = random.pick(&places());
        let edges = place.edges(&changed);
        place.set(&mut changed, random.pick(&edges));
    }
    let report = report_of(random, &changed, &state);
    desk.all(&changed, report);
}

/// Two counts, or a count and idle, whose sum is 2^64 or a little more.
pub fn sums_past_a_word(random: &mut Random, _: usize, desk: &mut Desk) {
    let mut state = states::out_of_nothing(random);
    let speeds = state.speed_count as usize;
    let part = random.pick(&[1, 2, 1 << 32, 1 << 63, u64::MAX - 1]);
    let rest = (u64::MAX - part + 1).saturating_add(random.between(0, 1));
    state.counts = [0; second::SPEEDS];
    state.counts[random.place(speeds)] = part;
    match random.once_in(2) {
        true => state.idle = rest,
        false => (state.idle, state.counts[random.place(speeds)]) = (0, rest),
    }
    let report = vec![0; state.task_count as usize];
    desk.all(&state, report);
}
