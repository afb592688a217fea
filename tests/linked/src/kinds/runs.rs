//! Runs, each tick from the state that the one before gave.

use crate::desk::Desk;
use crate::random::Random;
use crate::{reports, states, tables};
use second::State;

/// A run of so many ticks; refused ones come between, and it goes on from the state that they give back.
fn run(random: &mut Random, mut state: State, ticks: u64, desk: &mut Desk) -> State {
    let times = random.pick(&[1, 2, 3, 8, 1_000]);
    for _ in 0..ticks {
        let report = match random.once_in(4) {
            true => reports::unfit(random, &state),
            false => reports::fitting(random, &state, times),
        };
        state = desk.all(&state, report).1;
        if random.once_in(8) {
            state = refused(random, &state, desk);
        }
    }
    state
}

/// A tick with lists of any lengths, few of them right.
fn refused(random: &mut Random, state: &State, desk: &mut Desk) -> State {
    let report = (0..random.place(21)).map(|_| 0).collect();
    desk.tick(state, report, random.place(21)).1
}

/// A run of any table from its start.
pub fn from_the_start(random: &mut Random, _: usize, desk: &mut Desk) {
    let table = tables::any(random);
    let (_, state) = desk.start(table.lists);
    run(random, state, 300, desk);
}

/// A long run of an admitted table.
pub fn long(random: &mut Random, _: usize, desk: &mut Desk) {
    let (tasks, speeds) = tables::sizes(random);
    let fresh = states::fresh(&tables::small(random, tasks, speeds));
    run(random, fresh, 10_000, desk);
}

/// A run that begins near its end, up to number 10 and some calls past it.
pub fn to_the_longest(random: &mut Random, _: usize, desk: &mut Desk) {
    let (tasks, speeds) = tables::sizes(random);
    let fresh = states::fresh(&tables::small(random, tasks, speeds));
    let ticks = random.between(0, 2 * fresh.great_period);
    let state = states::moved_on(&states::after(random, fresh, ticks));
    let left = second::LONGEST_RUN - state.t;
    // some ticks are refused, so a few more are played than are left
    let end = run(random, state, left + left / 4 + 5, desk);
    desk.all(&end, vec![0; end.task_count as usize]);
    let mut past = end;
    past.t += 1;
    desk.all(&past, vec![0; past.task_count as usize]);
}
