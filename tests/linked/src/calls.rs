//! The four calls with their inputs, and what the second program answers.

use crate::boundary::{self, bytes, put_words};
use piszczalin::raw;
use second::State;

/// The names of the four calls, by their number.
pub const CALLS: [&str; 4] = ["start", "now", "tick", "energy"];

/// The number of an unsound state.
const UNSOUND: u64 = 9;

/// A call with its inputs; a state is any bytes.
#[derive(Debug)]
#[allow(clippy::large_enum_variant)] // each is used once, and most have a state
pub enum Call {
    /// Periods, reserves, speeds and volts.
    Start([Vec<u64>; 4]),
    Now(raw::State),
    Tick {
        state: raw::State,
        report: Vec<u64>,
        /// The grants list as it is lent, and after it one place that is not.
        grants: Vec<u64>,
    },
    Energy(raw::State),
}

impl Call {
    /// Its place in CALLS.
    pub fn number(&self) -> usize {
        match self {
            Call::Start(_) => 0,
            Call::Now(_) => 1,
            Call::Tick { .. } => 2,
            Call::Energy(_) => 3,
        }
    }

    /// The bytes of its answer.
    pub fn answer_length(&self) -> usize {
        match self {
            Call::Start(_) => size_of::<raw::Started>(),
            Call::Now(_) => size_of::<raw::Told>(),
            Call::Tick { grants, .. } => size_of::<raw::Ticked>() + 8 * grants.len(),
            Call::Energy(_) => size_of::<raw::Used>(),
        }
    }

    /// Writes the second program's answer as the boundary has it; gives the number and, of start and tick, the state. Where a
    /// mark is neither 0 nor 1 the answer is the boundary's refusal, and there is no state to give.
    pub fn second(&self, answer: &mut Vec<u8>) -> (u64, Option<State>) {
        if let Call::Start([periods, reserves, speeds, volts]) = self {
            let started = second::start(periods, reserves, speeds, volts);
            answer.extend_from_slice(bytes(&boundary::started(started)));
            return (started.0, Some(started.1));
        }
        match self.known() {
            Some(state) => self.second_of(&state, answer),
            None => {
                answer.extend_from_slice(&self.refused(UNSOUND));
                (UNSOUND, None)
            }
        }
    }

    /// The state that it has, as the second program knows it.
    fn known(&self) -> Option<State> {
        match self {
            Call::Start(_) => None,
            Call::Now(state) | Call::Tick { state, .. } | Call::Energy(state) => {
                boundary::known(state)
            }
        }
    }

    /// The second program's answer for this state.
    fn second_of(&self, state: &State, answer: &mut Vec<u8>) -> (u64, Option<State>) {
        match self {
            Call::Start(_) => unreachable!("start has no state"),
            Call::Now(_) => {
                let told = second::now(state);
                answer.extend_from_slice(bytes(&boundary::told(told)));
                (told.0, None)
            }
            Call::Tick { report, grants, .. } => {
                let mut grants = grants.clone();
                let lent = grants.len() - 1;
                let ticked = second::tick(state, report, &mut grants[..lent]);
                answer.extend_from_slice(bytes(&boundary::ticked(ticked)));
                put_words(answer, &grants);
                (ticked.0, Some(ticked.1))
            }
            Call::Energy(_) => {
                let used = second::energy(state);
                answer.extend_from_slice(bytes(&boundary::used(used)));
                (used.0, None)
            }
        }
    }

    /// The answer with a refusal's number: the all-zero state; the bytes that tick got, and the grants as they were; zeros.
    pub fn refused(&self, number: u64) -> Vec<u8> {
        let mut answer = Vec::with_capacity(self.answer_length());
        match self {
            Call::Start(_) => {
                let zero = boundary::started((number, State::default()));
                answer.extend_from_slice(bytes(&zero));
            }
            Call::Now(_) => answer.extend_from_slice(bytes(&boundary::told((number, None, 0)))),
            Call::Tick { state, grants, .. } => {
                answer.extend_from_slice(bytes(&boundary::unticked(number, state)));
                put_words(&mut answer, grants);
            }
            Call::Energy(_) => answer.extend_from_slice(bytes(&boundary::used((number, 0)))),
        }
        answer
    }
}
