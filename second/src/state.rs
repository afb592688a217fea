//! The state, what rules 1, 2 and 6 say of one, and when it is sound.

use crate::table::{great_period, LONGEST_RUN, SPEEDS, TASKS};

/// A state of the governor. Anyone may make one; each call tests it first.
#[derive(Clone, Copy, Debug, Default, PartialEq, Eq)]
pub struct State {
    /// Ticks done so far.
    pub t: u64,
    /// The number of tasks.
    pub task_count: u64,
    /// The great period H, in ticks.
    pub great_period: u64,
    /// Each task's period, in ticks.
    pub periods: [u64; TASKS],
    /// Each task's reserve, in cycles.
    pub reserves: [u64; TASKS],
    /// The cycles each task's job has run.
    pub run: [u64; TASKS],
    /// Whether each task's job is over.
    pub over: [bool; TASKS],
    /// The number of speeds.
    pub speed_count: u64,
    /// The speeds, in cycles per tick.
    pub speeds: [u64; SPEEDS],
    /// The volts of each speed, in tenths.
    pub volts: [u64; SPEEDS],
    /// The cycles granted at each speed.
    pub counts: [u64; SPEEDS],
    /// The idle cycles.
    pub idle: u64,
    /// The jobs not over at their next release.
    pub late: u64,
    /// The jobs that used up their reserve without a finish.
    pub cut: u64,
}

impl State {
    /// Rule 1: the deadline of a task's job.
    pub(crate) fn deadline(&self, task: usize) -> u64 {
        self.t + self.periods[task] - self.t % self.periods[task]
    }

    /// Rule 2: a job's use.
    pub(crate) fn job_use(&self, task: usize) -> u64 {
        if self.over[task] {
            self.run[task]
        } else {
            self.reserves[task]
        }
    }

    /// Rule 2: the load.
    pub(crate) fn load(&self) -> u64 {
        (0..self.task_count as usize)
            .map(|task| self.job_use(task) * (self.great_period / self.periods[task]))
            .sum()
    }

    /// Rules 2 and 3: the place of the lowest speed that carries a load.
    pub(crate) fn carrier(&self, load: u64) -> Option<usize> {
        self.speeds[..self.speed_count as usize]
            .iter()
            .position(|speed| load <= speed * self.great_period)
    }

    /// Rule 6, for a sound state: at most 10^9 x 10^6 x 10^4, which fits 64 bits.
    pub(crate) fn spent(&self) -> u64 {
        (0..SPEEDS)
            .map(|place| self.counts[place] * self.volts[place] * self.volts[place])
            .sum()
    }
}

/// Whether a state is sound, by document 01's list.
pub fn sound(state: &State) -> bool {
    // The counts first: they say which places are in use.
    if state.task_count > TASKS as u64 || state.speed_count > SPEEDS as u64 {
        return false;
    }
    let tasks = state.task_count as usize;
    let speeds = state.speed_count as usize;
    right_tables(state, tasks, speeds)
        && (tasks..TASKS).all(|task| unused_task(state, task))
        && (speeds..SPEEDS).all(|place| unused_speed(state, place))
        && state.t <= LONGEST_RUN
        && (0..tasks).all(|task| sound_job(state, task))
        && true_sum(state) <= u128::from(state.t * state.speeds[speeds - 1])
        && state.late <= 16 * state.t
        && state.cut <= 16 * state.t
}

/// The tables pass 1 to 8, and H is right.
fn right_tables(state: &State, tasks: usize, speeds: usize) -> bool {
    let great = great_period(
        &state.periods[..tasks],
        &state.reserves[..tasks],
        &state.speeds[..speeds],
        &state.volts[..speeds],
    );
    great == Ok(state.great_period)
}

/// A place past the task count is zero.
fn unused_task(state: &State, task: usize) -> bool {
    state.periods[task] == 0
        && state.reserves[task] == 0
        && state.run[task] == 0
        && !state.over[task]
}

/// A place past the speed count is zero.
fn unused_speed(state: &State, place: usize) -> bool {
    state.speeds[place] == 0 && state.volts[place] == 0 && state.counts[place] == 0
}

/// A job not over has run below its reserve; one that is over, from 1 to it.
fn sound_job(state: &State, task: usize) -> bool {
    if state.over[task] {
        1 <= state.run[task] && state.run[task] <= state.reserves[task]
    } else {
        state.run[task] < state.reserves[task]
    }
}

/// Counts and idle together: a true sum, which may pass 64 bits.
fn true_sum(state: &State) -> u128 {
    let counts: u128 = state.counts.iter().map(|&count| u128::from(count)).sum();
    counts + u128::from(state.idle)
}
