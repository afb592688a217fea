//! Every field and every place of a state: its name, where it stands at the boundary, its limit.

use crate::edges;
use crate::tables::MOST;
use piszczalin::raw;
use second::{State, GREATEST_PERIOD, LONGEST_RUN, SPEEDS, TASKS};
use std::mem::offset_of;

/// A field of the state, with one place or with those of an array.
pub struct Field {
    pub name: &'static str,
    /// How many places it has.
    pub places: usize,
    /// The bytes of a place at the boundary.
    pub width: usize,
    /// Where its first place begins at the boundary.
    pub offset: usize,
    pub get: fn(&State, usize) -> u64,
    pub set: fn(&mut State, usize, u64),
    /// The most that it may be in this state, where the other fields stay.
    pub limit: fn(&State, usize) -> u64,
}

/// A field of words: its path at the boundary, its name in the second program with the places of an array, its limit.
macro_rules! field {
    ($($path:ident).+, $name:ident, $limit:expr) => {
        Field {
            places: 1,
            get: |s, _| s.$name,
            set: |s, _, value| s.$name = value,
            ..field!(@ $($path).+, $limit)
        }
    };
    ($($path:ident).+, $name:ident[$places:expr], $limit:expr) => {
        Field {
            places: $places,
            get: |s, i| s.$name[i],
            set: |s, i, value| s.$name[i] = value,
            ..field!(@ $($path).+, $limit)
        }
    };
    (@ $($path:ident).+, $limit:expr) => {
        Field {
            name: stringify!($($path).+),
            places: 0,
            width: 8,
            offset: offset_of!(raw::State, $($path).+),
            get: |_, _| 0,
            set: |_, _, _| (),
            limit: $limit,
        }
    };
}

/// Every field of the state.
pub const FIELDS: [Field; 14] = [
    field!(done, t, |_, _| LONGEST_RUN),
    field!(tasks.count, task_count, |_, _| TASKS as u64),
    field!(tasks.great, great_period, |_, _| GREATEST_PERIOD),
    field!(tasks.periods, periods[TASKS], |_, _| MOST[0]),
    field!(tasks.reserves, reserves[TASKS], |_, _| MOST[1]),
    field!(jobs.run, run[TASKS], |s, i| s.reserves[i]),
    Field {
        name: "jobs.over",
        places: TASKS,
        width: 1,
        offset: offset_of!(raw::State, jobs.over),
        get: |s, i| u64::from(s.over[i]),
        set: |s, i, value| s.over[i] = value & 1 == 1,
        limit: |_, _| 1,
    },
    field!(ladder.count, speed_count, |_, _| SPEEDS as u64),
    field!(ladder.speeds, speeds[SPEEDS], |_, _| MOST[2]),
    field!(ladder.volts, volts[SPEEDS], |_, _| MOST[3]),
    field!(tally.counts, counts[SPEEDS], |s, i| room(s)
        .saturating_add(s.counts[i])),
    field!(tally.idle, idle, |s, _| room(s).saturating_add(s.idle)),
    field!(tally.late, late, |s, _| s.t.saturating_mul(16)),
    field!(tally.cut, cut, |s, _| s.t.saturating_mul(16)),
];

/// The cycles that counts and idle together are below t x top speed; 0 where they are not.
pub fn room(state: &State) -> u64 {
    let top = state.speeds.iter().max().copied().unwrap_or(0);
    let counted = state
        .counts
        .iter()
        .fold(state.idle, |sum, &count| sum.saturating_add(count));
    state.t.saturating_mul(top).saturating_sub(counted)
}

/// One place of one field.
#[derive(Clone, Copy)]
pub struct Place {
    pub field: usize,
    pub place: usize,
}

impl Place {
    fn field(self) -> &'static Field {
        &FIELDS[self.field]
    }

    pub fn get(self, state: &State) -> u64 {
        (self.field().get)(state, self.place)
    }

    pub fn set(self, state: &mut State, value: u64) {
        (self.field().set)(state, self.place, value)
    }

    /// The values at the edges of this place, other than the one that is there.
    pub fn edges(self, state: &State) -> Vec<u64> {
        let old = self.get(state);
        let mut values = match self.field().width {
            1 => vec![0, 1],
            _ => edges::around((self.field().limit)(state, self.place), old).to_vec(),
        };
        values.sort();
        values.dedup();
        values.retain(|&value| value != old);
        values
    }

    /// Its name, as tasks.periods[3].
    pub fn name(self) -> String {
        match self.field().places {
            1 => self.field().name.to_string(),
            _ => format!("{}[{}]", self.field().name, self.place),
        }
    }

    /// Its first byte and its width at the boundary.
    pub fn span(self) -> (usize, usize) {
        let width = self.field().width;
        (self.field().offset + self.place * width, width)
    }
}

/// How many places a state has.
pub const PLACES: usize = 7 + 4 * TASKS + 3 * SPEEDS;

/// Every place of every field.
pub fn places() -> Vec<Place> {
    let of_field =
        |field: usize| (0..FIELDS[field].places).map(move |place| Place { field, place });
    (0..FIELDS.len()).flat_map(of_field).collect()
}

#[cfg(test)]
mod tests {
    use super::*;
    use crate::boundary;

    /// The places stand one after the other, and the last ends where the state does.
    #[test]
    fn places_cover_every_byte_of_the_state() {
        let mut spans: Vec<_> = places().into_iter().map(Place::span).collect();
        spans.sort();
        let end = spans.iter().fold(0, |end, &(offset, width)| {
            assert_eq!(offset, end);
            offset + width
        });
        assert_eq!(end, size_of::<raw::State>());
        assert_eq!(places().len(), PLACES);
    }

    /// No answer has padding: a number and a state, or words.
    #[test]
    fn answers_have_no_padding() {
        assert_eq!(size_of::<raw::Started>(), 8 + size_of::<raw::State>());
        assert_eq!(size_of::<raw::Ticked>(), 8 + size_of::<raw::State>());
        assert_eq!(size_of::<raw::Told>(), 4 * 8);
        assert_eq!(size_of::<raw::Used>(), 2 * 8);
    }

    /// A place that is set changes the bytes of its span at the boundary, and no others.
    #[test]
    fn a_place_is_its_own_bytes() {
        let zero = boundary::state(&State::default());
        for place in places() {
            let mut state = State::default();
            place.set(&mut state, u64::MAX);
            assert_eq!(
                place.get(&state),
                if place.span().1 == 1 { 1 } else { u64::MAX }
            );
            let changed = boundary::state(&state);
            let (offset, width) = place.span();
            let pairs = boundary::bytes(&changed).iter().zip(boundary::bytes(&zero));
            for (byte, (new, old)) in pairs.enumerate() {
                let inside = (offset..offset + width).contains(&byte);
                assert_eq!(new != old, inside, "{} byte {byte}", place.name());
            }
        }
    }
}
