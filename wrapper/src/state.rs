//! The four calls.
use crate::bytes::{Reader, Writer};
use crate::raw;
use crate::refusal::accepted;
use crate::{Cycles, Refusal, Speed, Ticks, Volts};

/// A state of the governor: its tables, its current jobs and its counts. It is a plain value; no call changes one.
#[derive(Clone, Debug, PartialEq, Eq)]
pub struct State(raw::State);

/// What now tells: what to do in the next tick.
#[derive(Clone, Copy, Debug, PartialEq, Eq)]
pub struct Told {
    /// The task to run, or nothing.
    pub choice: Choice,
    /// The lowest listed speed that carries the load. It stands for the whole tick.
    pub speed: Speed,
}

/// Rule 3's choice.
#[derive(Clone, Copy, Debug, PartialEq, Eq)]
pub enum Choice {
    /// The ready task with the earliest deadline, the lower number at a tie.
    Task {
        /// Its number, from 1.
        number: u64,
        /// Its job's deadline, counted from the run's start.
        deadline: Ticks,
    },
    /// Nothing is ready.
    Nothing,
}

/// A task's entry of a report.
#[repr(transparent)]
#[derive(Clone, Copy, Debug, PartialEq, Eq, Hash)]
pub struct Entry(u64);

impl Entry {
    /// The task's job did not finish in this tick.
    pub const NO_FINISH: Entry = Entry(0);

    /// The task's job finished in this tick, after so many cycles in all, those of earlier ticks included. None for 0
    /// cycles: no job finishes before it has run.
    #[must_use]
    pub const fn finished_after(cycles: Cycles) -> Option<Entry> {
        match cycles.0 {
            0 => None,
            total => Some(Entry(total)),
        }
    }
}

/// Makes the fresh state of a table, all tasks released at tick 0: a period and a reserve for each task, a speed and its volts
/// for each speed.
///
/// # Errors
/// Refusals 1 to 8.
pub fn start(
    periods: &[Ticks],
    reserves: &[Cycles],
    speeds: &[Speed],
    volts: &[Volts],
) -> Result<State, Refusal> {
    // SAFETY: each list is a slice of its own length, and a unit is laid out as its number is.
    let started = unsafe {
        raw::piszczalin_start(
            periods.as_ptr().cast(),
            periods.len(),
            reserves.as_ptr().cast(),
            reserves.len(),
            speeds.as_ptr().cast(),
            speeds.len(),
            volts.as_ptr().cast(),
            volts.len(),
        )
    };
    accepted(started.number)?;
    Ok(State(started.state))
}

impl State {
    /// The bytes of a state.
    pub const BYTES: usize = size_of::<raw::State>();

    /// Tells the task to run and the speed.
    ///
    /// # Errors
    /// Refusals 9, 10 and 12. A state that came from [`start`] and [`State::tick`] gives only 10, at the end of the longest run.
    pub fn now(&self) -> Result<Told, Refusal> {
        // SAFETY: the call takes any state.
        let told = unsafe { raw::piszczalin_now(self.0) };
        accepted(told.number)?;
        let choice = match told.task {
            0 => Choice::Nothing,
            number => Choice::Task {
                number,
                deadline: told.deadline,
            },
        };
        Ok(Told {
            choice,
            speed: told.speed,
        })
    }

    /// Settles one tick: gives the next state, and writes the cycles of each task in this tick to the grants list, 0 for a job
    /// that is over or not reached. The report has one entry and the grants list one place for each task.
    ///
    /// # Errors
    /// Refusals 9 to 13. Then the grants list is as it was.
    pub fn tick(&self, report: &[Entry], grants: &mut [Cycles]) -> Result<State, Refusal> {
        // SAFETY: each list is a slice of its own length, an entry and a unit are laid out as their numbers are, and the
        // grants list, lent alone, overlaps nothing.
        let ticked = unsafe {
            raw::piszczalin_tick(
                self.0,
                report.as_ptr().cast(),
                report.len(),
                grants.as_mut_ptr().cast(),
                grants.len(),
            )
        };
        accepted(ticked.number)?;
        Ok(State(ticked.state))
    }

    /// Tells what this state has used: the sum over speeds of count x volts x volts, in cycles x tenths of a volt squared.
    ///
    /// # Errors
    /// Refusal 9.
    pub fn energy(&self) -> Result<u64, Refusal> {
        // SAFETY: the call takes any state.
        let used = unsafe { raw::piszczalin_energy(self.0) };
        accepted(used.number)?;
        Ok(used.energy)
    }

    /// The ticks done so far.
    #[must_use]
    pub const fn done(&self) -> Ticks {
        self.0.done
    }

    /// What has been counted: cycles granted at each speed, idle cycles, jobs late, jobs cut.
    #[must_use]
    pub const fn tally(&self) -> &raw::Tally {
        &self.0.tally
    }

    /// All fields of this state.
    #[must_use]
    pub const fn as_raw(&self) -> &raw::State {
        &self.0
    }

    /// A state of any fields. The calls answer 9 for one that is unsound.
    #[must_use]
    pub const fn from_raw(fields: raw::State) -> State {
        State(fields)
    }

    /// This state as bytes: its fields in their order, numbers of 8 bytes with the lowest first, marks of 1.
    #[must_use]
    pub fn to_bytes(&self) -> [u8; State::BYTES] {
        let mut bytes = [0; State::BYTES];
        Writer::new(&mut bytes).state(&self.0);
        bytes
    }

    /// Takes a state from bytes of any origin: any are one. The calls answer 9 for a state that is unsound.
    #[must_use]
    pub fn from_bytes(bytes: &[u8; State::BYTES]) -> State {
        State(Reader::new(bytes).state())
    }
}
