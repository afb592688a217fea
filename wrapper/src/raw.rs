//! The boundary as it is: the structs and functions of `include/piszczalin.h`, field by field.
//!
//! `tests/layout/run` holds header, this module and the Rattle source to each other.

use crate::units::{Cycles, Speed, Ticks, Volts};

/// The most tasks of a table.
pub const TASKS: usize = 16;
/// The most speeds of a table.
pub const SPEEDS: usize = 8;

// The library is for 64 bits; elsewhere the state would be laid out otherwise.
const _: () = assert!(size_of::<usize>() == 8 && size_of::<State>() == 648);

/// The task side of a table. Places past the task count hold zero.
#[repr(C)]
#[derive(Clone, Copy, Debug, Default, PartialEq, Eq)]
pub struct Tasks {
    /// How many tasks: 1 to 16.
    pub count: usize,
    /// The great period H, the least common multiple of the periods: at most 1,000,000.
    pub great: Ticks,
    /// Each task's period: 1 to 1,000,000.
    pub periods: [Ticks; TASKS],
    /// Each task's reserve, per job: 1 to 1,000,000,000.
    pub reserves: [Cycles; TASKS],
}

/// Each task's current job. Places past the task count hold zero.
#[repr(C)]
#[derive(Clone, Copy, Debug, Default, PartialEq, Eq)]
pub struct Jobs {
    /// The cycles that the job ran so far.
    pub run: [Cycles; TASKS],
    /// Each job's mark: 1 where it is over, by a finish or a cut, and 0 where it is not. A state with another byte here is unsound.
    pub over: [u8; TASKS],
}

impl Jobs {
    /// Whether the job of the task at a place, counted from 0, is over. None where the byte there is no mark, or there is no such place.
    #[must_use]
    pub fn is_over(&self, place: usize) -> Option<bool> {
        match self.over.get(place) {
            Some(0) => Some(false),
            Some(1) => Some(true),
            _ => None,
        }
    }
}

/// The speed side of a table. Places past the speed count hold zero.
#[repr(C)]
#[derive(Clone, Copy, Debug, Default, PartialEq, Eq)]
pub struct Ladder {
    /// How many speeds: 1 to 8.
    pub count: usize,
    /// The speeds: each 1 to 1,000,000, strictly rising.
    pub speeds: [Speed; SPEEDS],
    /// Each speed's volts: 1 to 100, never falling.
    pub volts: [Volts; SPEEDS],
}

/// What has been counted.
#[repr(C)]
#[derive(Clone, Copy, Debug, Default, PartialEq, Eq)]
pub struct Tally {
    /// Cycles granted at each speed.
    pub counts: [Cycles; SPEEDS],
    /// Idle cycles: what remained of the ticks.
    pub idle: Cycles,
    /// Jobs not over at their task's next release, dropped there; 0 in every run from start.
    pub late: u64,
    /// Jobs that used up their reserve without a finish.
    pub cut: u64,
}

/// The whole state: 648 bytes, no padding. Any bytes are one; the calls answer 9 for one that is unsound.
#[repr(C)]
#[derive(Clone, Copy, Debug, Default, PartialEq, Eq)]
pub struct State {
    /// t, the ticks done so far: at most 1,000,000,000.
    pub done: Ticks,
    /// The task side of the table.
    pub tasks: Tasks,
    /// Each task's current job.
    pub jobs: Jobs,
    /// The speed side of the table.
    pub ladder: Ladder,
    /// What has been counted.
    pub tally: Tally,
}

/// What start answers: 0 and the fresh state, or 1 to 8 and the all-zero state.
#[repr(C)]
#[derive(Clone, Copy, Debug, Default, PartialEq, Eq)]
pub struct Started {
    /// 0, or the refusal's number.
    pub number: u64,
    /// The fresh state, or the all-zero one.
    pub state: State,
}

/// What now answers: 0, the task to run and the speed; or 9, 10 or 12, and zeros.
#[repr(C)]
#[derive(Clone, Copy, Debug, Default, PartialEq, Eq)]
pub struct Told {
    /// 0, or the refusal's number.
    pub number: u64,
    /// The ready task with the earliest deadline, the lower number at a tie, from 1; 0 where nothing is ready.
    pub task: u64,
    /// Its job's deadline; 0 where nothing is ready.
    pub deadline: Ticks,
    /// The lowest listed speed that carries the load.
    pub speed: Speed,
}

/// What tick answers: 0 and the next state, or 9 to 13 and the state that was given.
#[repr(C)]
#[derive(Clone, Copy, Debug, Default, PartialEq, Eq)]
pub struct Ticked {
    /// 0, or the refusal's number.
    pub number: u64,
    /// The next state, or the one that was given.
    pub state: State,
}

/// What energy answers: 0 and the energy, or 9 and 0.
#[repr(C)]
#[derive(Clone, Copy, Debug, Default, PartialEq, Eq)]
pub struct Used {
    /// 0, or the refusal's number.
    pub number: u64,
    /// The sum over speeds of count x volts x volts, in cycles x tenths of a volt squared; 0 where refused.
    pub energy: u64,
}

extern "C" {
    /// Makes the fresh state of a table. Refuses with 1 to 8.
    ///
    /// # Safety
    /// Each list can be read: an aligned pointer to so many numbers, or any pointer and the length 0.
    pub fn piszczalin_start(
        periods: *const u64,
        period_count: usize,
        reserves: *const u64,
        reserve_count: usize,
        speeds: *const u64,
        speed_count: usize,
        volts: *const u64,
        volt_count: usize,
    ) -> Started;

    /// Tells the task to run and the speed. Refuses with 9, 10 or 12.
    ///
    /// # Safety
    /// Any state may be given.
    pub fn piszczalin_now(state: State) -> Told;

    /// Settles a report, gives the next state and writes each task's cycles to the grants list. Refuses with 9 to 13; then
    /// the state is the one given and the grants list is as it was.
    ///
    /// # Safety
    /// The report can be read and the grants list written: an aligned pointer to so many numbers, or any pointer and the
    /// length 0. The two do not overlap.
    pub fn piszczalin_tick(
        state: State,
        report: *const u64,
        report_count: usize,
        grants: *mut u64,
        grant_count: usize,
    ) -> Ticked;

    /// Tells what a state has used. Refuses with 9.
    ///
    /// # Safety
    /// Any state may be given.
    pub fn piszczalin_energy(state: State) -> Used;
}
