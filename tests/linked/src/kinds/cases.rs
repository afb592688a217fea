//! Document 01's cases "to be run", and the numbers that no run file can bring about, each with the answer that it names.

use crate::compare::Named;
use crate::desk::Desk;
use crate::random::Random;
use second::State;

/// Each case.
pub const CASES: [fn(&mut Desk); 7] = [
    equal_periods,
    report_of_length_0,
    grants_of_length_1,
    entry_equal_to_the_reserve,
    the_all_zero_state,
    a_reserve_too_few,
    a_volt_value_too_many,
];

/// One case.
pub fn play(_: &mut Random, case: usize, desk: &mut Desk) {
    CASES[case](desk);
}

/// start.
fn start(
    desk: &mut Desk,
    periods: &[u64],
    reserves: &[u64],
    speeds: &[u64],
    volts: &[u64],
) -> State {
    desk.start([periods, reserves, speeds, volts].map(<[u64]>::to_vec))
        .1
}

/// The fresh state of two tasks with period 4, and one speed that carries them.
fn two_tasks(desk: &mut Desk) -> State {
    desk.named(&[
        ("number", 0),
        ("done", 0),
        ("tasks.count", 2),
        ("tasks.great", 4),
    ]);
    start(desk, &[4, 4], &[2, 2], &[1], &[10])
}

/// "Equal periods 4 and 4 (task 1 goes first)": it is told, and has the cycles of the first ticks; then task 2.
fn equal_periods(desk: &mut Desk) {
    let mut state = two_tasks(desk);
    for (told, grants) in [
        (FIRST, ONE_TO_THE_FIRST),
        (FIRST, ONE_TO_THE_FIRST),
        (SECOND, ONE_TO_THE_SECOND),
        (SECOND, ONE_TO_THE_SECOND),
    ] {
        desk.named(told);
        desk.now(&state);
        desk.named(grants);
        state = desk.report(&state, vec![0, 0]).1;
    }
}

const FIRST: Named = &[("number", 0), ("task", 1), ("deadline", 4), ("speed", 1)];
const SECOND: Named = &[("number", 0), ("task", 2), ("deadline", 4), ("speed", 1)];
const ONE_TO_THE_FIRST: Named = &[("number", 0), ("grants[0]", 1), ("grants[1]", 0)];
const ONE_TO_THE_SECOND: Named = &[("number", 0), ("grants[0]", 0), ("grants[1]", 1)];

/// "A report of length 0 (11)".
fn report_of_length_0(desk: &mut Desk) {
    let state = two_tasks(desk);
    desk.named(&[("number", 11), ("done", 0)]);
    desk.tick(&state, vec![], 2);
}

/// A grants list that is not as long as the task count (11).
fn grants_of_length_1(desk: &mut Desk) {
    let state = two_tasks(desk);
    desk.named(&[("number", 11), ("done", 0)]);
    desk.tick(&state, vec![0, 0], 1);
}

/// "An entry equal to the reserve (finished, not cut) against 0 in the same tick (cut)": of both jobs, and of one each.
fn entry_equal_to_the_reserve(desk: &mut Desk) {
    desk.named(&[("number", 0), ("tally.cut", 0)]);
    let state = start(desk, &[4, 4], &[2, 2], &[4], &[10]);
    let cuts: [(Vec<u64>, Named); 4] = [
        (vec![2, 2], CUT_0),
        (vec![2, 0], CUT_1),
        (vec![0, 2], CUT_1),
        (vec![0, 0], CUT_2),
    ];
    for (report, cut) in cuts {
        desk.named(cut);
        desk.report(&state, report);
    }
}

const CUT_0: Named = &[
    ("number", 0),
    ("jobs.over[0]", 1),
    ("jobs.over[1]", 1),
    ("tally.cut", 0),
];
const CUT_1: Named = &[
    ("number", 0),
    ("jobs.over[0]", 1),
    ("jobs.over[1]", 1),
    ("tally.cut", 1),
];
const CUT_2: Named = &[
    ("number", 0),
    ("jobs.over[0]", 1),
    ("jobs.over[1]", 1),
    ("tally.cut", 2),
];

/// "The all-zero state (9)", which start gives for no table.
fn the_all_zero_state(desk: &mut Desk) {
    desk.named(&[("number", 1), ("tasks.count", 0)]);
    let state = start(desk, &[], &[], &[], &[]);
    desk.named(&[("number", 9), ("task", 0), ("deadline", 0), ("speed", 0)]);
    desk.now(&state);
    desk.named(&[("number", 9), ("energy", 0)]);
    desk.energy(&state);
    desk.named(&[("number", 9), ("done", 0)]);
    desk.tick(&state, vec![], 0);
}

/// "As many reserves not given" (1).
fn a_reserve_too_few(desk: &mut Desk) {
    desk.named(&[("number", 1), ("tasks.count", 0)]);
    start(desk, &[4, 4], &[2], &[1], &[10]);
}

/// "As many volts not given" (2).
fn a_volt_value_too_many(desk: &mut Desk) {
    desk.named(&[("number", 2), ("tasks.count", 0)]);
    start(desk, &[4, 4], &[2, 2], &[1], &[10, 10]);
}
