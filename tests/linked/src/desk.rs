//! Where the inputs go: each call to the second program at once, to the library in batches.

use crate::boundary;
use crate::calls::Call;
use crate::compare::{differences, number, unlike, Named};
use crate::kinds::KINDS;
use crate::library::Library;
use crate::tally::Tally;
use piszczalin::raw;
use second::State;
use std::io::{Error, Result};

/// The calls of a batch.
const BATCH: usize = 4_000;
/// The differences that one thread tells in full.
const TOLD: u64 = 5;

/// What is known of a call.
#[derive(Clone, Copy)]
struct Note {
    /// The kind of its inputs.
    kind: usize,
    /// The one place that was changed in a sound state.
    changed: Option<usize>,
    /// What document 01 says of its answer.
    named: Named,
}

pub struct Desk {
    library: Box<dyn Library>,
    calls: Vec<Call>,
    /// Of each call, what is known of it.
    notes: Vec<Note>,
    /// The second program's answers to the calls.
    expected: Vec<u8>,
    /// The note of the next call.
    note: Note,
    /// The word that was put in a grants list last.
    pattern: u64,
    tally: Tally,
    /// Why the library gave no answer.
    error: Option<Error>,
}

/// The answer of start, or of tick for a state that the second program knows.
fn with_state((number, state): (u64, Option<State>)) -> (u64, State) {
    (number, state.expect("a state comes with the answer"))
}

impl Desk {
    pub fn new(library: Box<dyn Library>) -> Desk {
        Desk {
            library,
            calls: Vec::new(),
            notes: Vec::new(),
            expected: Vec::new(),
            note: Note {
                kind: 0,
                changed: None,
                named: &[],
            },
            pattern: 0x6772_616e_7400_0000,
            tally: Tally::new(),
            error: None,
        }
    }

    /// The kind of inputs from here on.
    pub fn kind(&mut self, kind: usize) {
        self.note.kind = kind;
    }

    /// The place that is changed in a sound state from here on.
    pub fn changed(&mut self, place: Option<usize>) {
        self.note.changed = place;
    }

    /// What document 01 says of the answer to the next call.
    pub fn named(&mut self, named: Named) {
        self.note.named = named;
    }

    /// A call; gives the second program's number and, of start and tick, its state.
    fn call(&mut self, call: Call) -> (u64, Option<State>) {
        let answer = call.second(&mut self.expected);
        self.calls.push(call);
        self.notes.push(self.note);
        self.note.named = &[];
        if self.calls.len() == BATCH {
            self.flush();
        }
        answer
    }

    pub fn start(&mut self, lists: [Vec<u64>; 4]) -> (u64, State) {
        with_state(self.call(Call::Start(lists)))
    }

    pub fn now(&mut self, state: &State) -> u64 {
        self.call(Call::Now(boundary::state(state))).0
    }

    pub fn energy(&mut self, state: &State) -> u64 {
        self.call(Call::Energy(boundary::state(state))).0
    }

    /// A tick with a grants list of so many places, in each a word that no tick grants.
    pub fn tick(&mut self, state: &State, report: Vec<u64>, grants: usize) -> (u64, State) {
        with_state(self.tick_of(boundary::state(state), report, grants))
    }

    /// The same of a state of any bytes.
    fn tick_of(
        &mut self,
        state: raw::State,
        report: Vec<u64>,
        grants: usize,
    ) -> (u64, Option<State>) {
        let grants = (0..=grants).map(|_| self.next_pattern()).collect();
        self.call(Call::Tick {
            state,
            report,
            grants,
        })
    }

    fn next_pattern(&mut self) -> u64 {
        self.pattern += 1;
        self.pattern
    }

    /// A tick with a grants list as long as the report.
    pub fn report(&mut self, state: &State, report: Vec<u64>) -> (u64, State) {
        let length = report.len();
        self.tick(state, report, length)
    }

    /// now, energy and tick.
    pub fn all(&mut self, state: &State, report: Vec<u64>) -> (u64, State) {
        self.now(state);
        self.energy(state);
        self.report(state, report)
    }

    /// now, energy and tick of a state of any bytes.
    pub fn all_of(&mut self, state: &raw::State, report: Vec<u64>) {
        self.call(Call::Now(*state));
        self.call(Call::Energy(*state));
        let length = report.len();
        self.tick_of(*state, report, length);
    }

    /// The batch so far to the library, and its answers compared.
    fn flush(&mut self) {
        let calls = std::mem::take(&mut self.calls);
        let notes = std::mem::take(&mut self.notes);
        let expected = std::mem::take(&mut self.expected);
        if self.error.is_some() {
            return;
        }
        let mut answers = Vec::with_capacity(expected.len());
        if let Err(error) = self.library.answer(&calls, &mut answers) {
            self.error = Some(error);
            return;
        }
        let mut begin = 0;
        for (call, note) in calls.iter().zip(notes) {
            let end = begin + call.answer_length();
            self.compare(call, note, &answers[begin..end], &expected[begin..end]);
            begin = end;
        }
    }

    /// One answer of the library: all bytes are those of the second program's, and those of a refusal where it is one; and what
    /// document 01 names is as it says.
    fn compare(&mut self, call: &Call, note: Note, answer: &[u8], second: &[u8]) {
        let Note {
            kind,
            changed,
            named,
        } = note;
        let number = number(answer);
        self.tally.count(kind, call.number(), number, changed);
        let lines = unlike(call, answer, named);
        if !lines.is_empty() {
            self.tell(kind, call, lines);
        }
        if answer != second {
            self.tell(kind, call, differences(call, answer, ("second", second)));
        } else if number != 0 {
            let refused = call.refused(number);
            if answer != refused {
                self.tell(kind, call, differences(call, answer, ("refusal", &refused)));
            }
        }
    }

    /// Counts a difference; the first ones are told with all inputs, as they are written in Rust.
    fn tell(&mut self, kind: usize, call: &Call, lines: Vec<String>) {
        self.tally.differences += 1;
        if self.tally.differences <= TOLD {
            let (name, lines) = (KINDS[kind].name, lines.join("\n"));
            println!("difference: kind '{name}'\n  {call:?}\n{lines}");
        }
    }

    /// The last batch, and what was met.
    pub fn end(mut self) -> Result<Tally> {
        self.flush();
        match self.error {
            Some(error) => Err(error),
            None => self.library.end().map(|()| self.tally),
        }
    }
}
