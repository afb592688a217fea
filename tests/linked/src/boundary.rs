//! The second program's values in the boundary's structs and back, and the bytes of these.

use piszczalin::raw;
use second::{State, SPEEDS, TASKS};

/// A state in the boundary's struct. All its fields are named: a new one does not compile until it is here.
pub fn state(state: &State) -> raw::State {
    let mut out = raw::State::default();
    let raw::State {
        done,
        tasks,
        jobs,
        ladder,
        tally,
    } = &mut out;
    done.0 = state.t;
    put_tasks(state, tasks);
    put_jobs(state, jobs);
    put_ladder(state, ladder);
    put_tally(state, tally);
    out
}

/// The task side of the table.
fn put_tasks(state: &State, tasks: &mut raw::Tasks) {
    let raw::Tasks {
        count,
        great,
        periods,
        reserves,
    } = tasks;
    *count = state.task_count as usize;
    great.0 = state.great_period;
    for task in 0..TASKS {
        periods[task].0 = state.periods[task];
        reserves[task].0 = state.reserves[task];
    }
}

/// The current jobs.
fn put_jobs(state: &State, jobs: &mut raw::Jobs) {
    let raw::Jobs { run, over } = jobs;
    for task in 0..TASKS {
        run[task].0 = state.run[task];
        over[task] = u8::from(state.over[task]);
    }
}

/// The speed side of the table.
fn put_ladder(state: &State, ladder: &mut raw::Ladder) {
    let raw::Ladder {
        count,
        speeds,
        volts,
    } = ladder;
    *count = state.speed_count as usize;
    for place in 0..SPEEDS {
        speeds[place].0 = state.speeds[place];
        volts[place].0 = state.volts[place];
    }
}

/// The counts.
fn put_tally(state: &State, tally: &mut raw::Tally) {
    let raw::Tally {
        counts,
        idle,
        late,
        cut,
    } = tally;
    for (count, given) in counts.iter_mut().zip(state.counts) {
        count.0 = given;
    }
    idle.0 = state.idle;
    *late = state.late;
    *cut = state.cut;
}

/// The boundary's rule: a mark is 1 for a job that is over and 0 for one that is not. Bytes with another mark are no state that
/// the second program knows; the documents' answer to them is 9, the bytes given back and no grant written.
pub fn known(given: &raw::State) -> Option<State> {
    let raw::State {
        done,
        tasks,
        jobs,
        ladder,
        tally,
    } = given;
    jobs.over.iter().all(|&mark| mark <= 1).then(|| State {
        t: done.0,
        task_count: tasks.count as u64,
        great_period: tasks.great.0,
        periods: tasks.periods.map(|ticks| ticks.0),
        reserves: tasks.reserves.map(|cycles| cycles.0),
        run: jobs.run.map(|cycles| cycles.0),
        over: jobs.over.map(|mark| mark == 1),
        speed_count: ladder.count as u64,
        speeds: ladder.speeds.map(|speed| speed.0),
        volts: ladder.volts.map(|volts| volts.0),
        counts: tally.counts.map(|cycles| cycles.0),
        idle: tally.idle.0,
        late: tally.late,
        cut: tally.cut,
    })
}

/// The bytes of a state.
pub const BYTES: usize = size_of::<raw::State>();

/// The state of any bytes.
pub fn of_bytes(bytes: &[u8; BYTES]) -> raw::State {
    *piszczalin::State::from_bytes(bytes).as_raw()
}

/// What start answers.
pub fn started((number, next): (u64, State)) -> raw::Started {
    raw::Started {
        number,
        state: state(&next),
    }
}

/// What now answers: task and deadline are 0 where nothing is ready.
pub fn told((number, chosen, speed): (u64, Option<(u64, u64)>, u64)) -> raw::Told {
    let mut told = raw::Told::default();
    let (task, deadline) = chosen.unwrap_or((0, 0));
    (told.number, told.task) = (number, task);
    (told.deadline.0, told.speed.0) = (deadline, speed);
    told
}

/// What tick answers.
pub fn ticked((number, next): (u64, State)) -> raw::Ticked {
    unticked(number, &state(&next))
}

/// What a refused tick answers: the state that was given.
pub fn unticked(number: u64, given: &raw::State) -> raw::Ticked {
    raw::Ticked {
        number,
        state: *given,
    }
}

/// What energy answers.
pub fn used((number, energy): (u64, u64)) -> raw::Used {
    raw::Used { number, energy }
}

/// One of the boundary's structs.
///
/// # Safety
/// No byte of it is padding.
pub unsafe trait Plain: Copy {}
// SAFETY: their fields fill them, which the tests of `fields` show.
unsafe impl Plain for raw::State {}
unsafe impl Plain for raw::Started {}
unsafe impl Plain for raw::Told {}
unsafe impl Plain for raw::Ticked {}
unsafe impl Plain for raw::Used {}

/// The bytes of a struct.
pub fn bytes<T: Plain>(value: &T) -> &[u8] {
    // SAFETY: as many bytes as the value has, each of them initialized, lent as long as it is.
    unsafe { std::slice::from_raw_parts(std::ptr::from_ref(value).cast(), size_of::<T>()) }
}

/// Writes the words of a list.
pub fn put_words(out: &mut Vec<u8>, words: &[u64]) {
    for word in words {
        out.extend_from_slice(&word.to_ne_bytes());
    }
}

#[cfg(test)]
mod tests {
    use super::*;
    use crate::fields::places;
    use crate::random::Random;
    use crate::states;

    /// What the second program is given is what the boundary is given.
    #[test]
    fn a_state_comes_back() {
        for round in 0..500 {
            let given = states::words(&mut Random::of(7, 3, round));
            assert_eq!(known(&state(&given)), Some(given));
        }
        for place in places() {
            let mut given = State::default();
            place.set(&mut given, 1);
            assert_eq!(known(&state(&given)), Some(given));
        }
    }

    /// A byte other than 0 and 1 in any mark is no state that the second program knows; in any other place it is.
    #[test]
    fn a_mark_is_0_or_1() {
        let marks = std::mem::offset_of!(raw::State, jobs.over);
        for place in 0..BYTES {
            for byte in 0..=255 {
                let mut bytes = [0; BYTES];
                bytes[place] = byte;
                let mark = (marks..marks + TASKS).contains(&place);
                assert_eq!(known(&of_bytes(&bytes)).is_none(), mark && byte > 1);
            }
        }
    }
}
