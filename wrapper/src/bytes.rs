//! A state as bytes, and back: the fields in their order, numbers of 8 bytes with the lowest first, marks of 1.
use crate::raw::{Jobs, Ladder, State, Tally, Tasks};
use crate::{Cycles, Speed, Ticks, Volts};

// Bytes that are still to be read.
pub(crate) struct Reader<'a>(&'a [u8]);

impl<'a> Reader<'a> {
    pub(crate) fn new(bytes: &'a [u8; size_of::<State>()]) -> Reader<'a> {
        Reader(bytes)
    }

    // The next bytes; a state is read to its end and no further.
    fn next<const N: usize>(&mut self) -> [u8; N] {
        let (first, rest) = self
            .0
            .split_first_chunk()
            .expect("a state is as long as its fields");
        self.0 = rest;
        *first
    }

    fn number(&mut self) -> u64 {
        u64::from_le_bytes(self.next())
    }

    fn count(&mut self) -> usize {
        usize::from_le_bytes(self.next())
    }

    fn numbers<T, const N: usize>(&mut self, unit: fn(u64) -> T) -> [T; N] {
        core::array::from_fn(|_| unit(self.number()))
    }

    pub(crate) fn state(mut self) -> State {
        State {
            done: Ticks(self.number()),
            tasks: Tasks {
                count: self.count(),
                great: Ticks(self.number()),
                periods: self.numbers(Ticks),
                reserves: self.numbers(Cycles),
            },
            jobs: Jobs {
                run: self.numbers(Cycles),
                over: self.next(),
            },
            ladder: Ladder {
                count: self.count(),
                speeds: self.numbers(Speed),
                volts: self.numbers(Volts),
            },
            tally: Tally {
                counts: self.numbers(Cycles),
                idle: Cycles(self.number()),
                late: self.number(),
                cut: self.number(),
            },
        }
    }
}

// Room that is still to be written.
pub(crate) struct Writer<'a>(&'a mut [u8]);

impl<'a> Writer<'a> {
    pub(crate) fn new(room: &'a mut [u8; size_of::<State>()]) -> Writer<'a> {
        Writer(room)
    }

    fn bytes(&mut self, bytes: &[u8]) {
        let (first, rest) = core::mem::take(&mut self.0).split_at_mut(bytes.len());
        first.copy_from_slice(bytes);
        self.0 = rest;
    }

    fn number(&mut self, number: u64) {
        self.bytes(&number.to_le_bytes());
    }

    fn numbers<T: Copy>(&mut self, numbers: &[T], plain: fn(T) -> u64) {
        for &number in numbers {
            self.number(plain(number));
        }
    }

    pub(crate) fn state(mut self, state: &State) {
        let State {
            done,
            tasks,
            jobs,
            ladder,
            tally,
        } = state;
        self.number(done.0);
        self.bytes(&tasks.count.to_le_bytes());
        self.number(tasks.great.0);
        self.numbers(&tasks.periods, |ticks| ticks.0);
        self.numbers(&tasks.reserves, |cycles| cycles.0);
        self.numbers(&jobs.run, |cycles| cycles.0);
        self.bytes(&jobs.over);
        self.bytes(&ladder.count.to_le_bytes());
        self.numbers(&ladder.speeds, |speed| speed.0);
        self.numbers(&ladder.volts, |volts| volts.0);
        self.numbers(&tally.counts, |cycles| cycles.0);
        self.number(tally.idle.0);
        self.number(tally.late);
        self.number(tally.cut);
    }
}
