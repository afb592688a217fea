//! Playing a run: ticks and their end, apart from any text.

use crate::course::Course;
use crate::governor::start;
use crate::runfile::RunFile;
use crate::state::State;
use crate::table::TASKS;

pub use crate::course::Settled as Played;

/// Who is told of each tick.
pub trait Watch {
    /// Tick t was accepted and did this.
    fn tick(&mut self, t: u64, played: &Played);
}

/// How a run ended. Made once per run, so its size does not matter.
#[derive(Clone, Copy, Debug, PartialEq, Eq)]
#[allow(clippy::large_enum_variant)]
pub enum Ending {
    /// By a refusal, of start or of a tick, with its number.
    Refused(u64),
    /// After its last tick, with this state.
    Done(State),
}

/// Plays a run: start, then a tick for each of the run line's, until one is refused.
pub fn play(file: &RunFile, watch: &mut impl Watch) -> Ending {
    let (number, state) = start(&file.periods, &file.reserves, &file.speeds, &file.volts);
    if number != 0 {
        return Ending::Refused(number);
    }
    let mut course = Course::of(&state);
    let mut report = [0; TASKS];
    let mut ends = file.ends.as_slice();
    for t in 0..file.ticks {
        let mut finishes = 0;
        while finishes < ends.len() && ends[finishes].tick == t {
            report[ends[finishes].place()] = ends[finishes].cycles;
            finishes += 1;
        }
        match course.tick(&report, finishes) {
            Ok(played) => watch.tick(t, played),
            Err(number) => return Ending::Refused(number),
        }
        for end in &ends[..finishes] {
            report[end.place()] = 0;
        }
        ends = &ends[finishes..];
    }
    Ending::Done(*course.state())
}
