//! The kinds of inputs.

mod bytes;
mod cases;
mod changes;
mod lists;
mod nonsense;
mod runs;
mod starts;

use crate::desk::Desk;
use crate::random::Random;

/// One kind of inputs: its name, its rounds, and what one round calls.
pub struct Kind {
    pub name: &'static str,
    pub rounds: usize,
    pub play: fn(&mut Random, usize, &mut Desk),
}

const fn kind(name: &'static str, rounds: usize, play: fn(&mut Random, usize, &mut Desk)) -> Kind {
    Kind { name, rounds, play }
}

/// Every kind.
pub const KINDS: [Kind; 24] = [
    kind(
        "start: every four lengths from 0 to 20",
        441,
        starts::four_lengths,
    ),
    kind(
        "start: an edge value at each place",
        150,
        starts::edge_values,
    ),
    kind(
        "start: a great period about its limit",
        30_000,
        starts::about_the_great_period,
    ),
    kind(
        "start: a load on the line and past it",
        30_000,
        starts::about_the_line,
    ),
    kind("start: nonsense", 60_000, starts::nonsense),
    kind("runs with refused ticks between", 500, runs::from_the_start),
    kind("long runs with refused ticks between", 20, runs::long),
    kind(
        "runs up to 1,000,000,000 ticks done",
        300,
        runs::to_the_longest,
    ),
    kind("sound states of runs", 20_000, nonsense::of_runs),
    kind(
        "sound states that no run reaches",
        60_000,
        nonsense::out_of_nothing,
    ),
    kind(
        "one place changed in a state of a run",
        200,
        changes::one_of_a_run,
    ),
    kind(
        "one place changed in a sound state that no run reaches",
        200,
        changes::one_of_any,
    ),
    kind("two or three places changed", 80_000, changes::some),
    kind(
        "counts whose sum passes 2^64",
        15_000,
        changes::sums_past_a_word,
    ),
    kind("states of random bytes", 20_000, bytes::random),
    kind("one byte changed in a sound state", 200, bytes::one_changed),
    kind(
        "one mark neither 0 nor 1 in a sound state",
        1_000,
        bytes::one_mark,
    ),
    kind(
        "marks of random bytes in a state of any kind",
        40_000,
        bytes::some_marks,
    ),
    kind("states of random words", 20_000, nonsense::words),
    kind("states of small numbers", 20_000, nonsense::small_numbers),
    kind(
        "random numbers in the shape of a state",
        60_000,
        nonsense::shaped,
    ),
    kind(
        "report and grants of every length from 0 to 20",
        150,
        lists::lengths,
    ),
    kind(
        "reports with an edge value at each place",
        1_500,
        lists::edge_values,
    ),
    kind(
        "document 01's cases to be run, with the answers it names",
        cases::CASES.len(),
        cases::play,
    ),
];

/// Plays this share's rounds of each kind.
pub fn play(seed: u64, share: usize, shares: usize, desk: &mut Desk) {
    for (number, kind) in KINDS.iter().enumerate() {
        desk.kind(number);
        for round in (share..kind.rounds).step_by(shares) {
            (kind.play)(&mut Random::of(seed, number, round), round, desk);
        }
    }
}
