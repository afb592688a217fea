//! The bench's text.

use crate::play::{play, Ending, Played, Watch};
use crate::runfile::RunFile;
use crate::state::State;
use crate::table::TASKS;

/// What the bench prints for any bytes.
pub fn bench(input: &[u8]) -> Vec<u8> {
    let Some(file) = RunFile::read(input) else {
        return Lines::new(0, 0).ended(b"refused", &[14]);
    };
    let mut lines = Lines::new(file.periods.len(), file.ticks as usize);
    match play(&file, &mut lines) {
        Ending::Refused(number) => lines.ended(b"refused", &[number]),
        Ending::Done(state) => lines.ended(b"total", &totals(&state)),
    }
}

/// The numbers of the total line.
fn totals(state: &State) -> [u64; 5] {
    let granted = state.counts.iter().sum();
    [granted, state.idle, state.spent(), state.late, state.cut]
}

/// At most eight bytes of text, the first one lowest.
#[derive(Clone, Copy)]
struct Word {
    bytes: u64,
    length: usize,
}

impl Word {
    /// A comma and 0.
    const ZERO_FIELD: Word = Word {
        bytes: u16::from_le_bytes(*b",0") as u64,
        length: 2,
    };

    /// The digits of a number below 10^8.
    fn digits(mut number: u64) -> Word {
        let mut word = Word {
            bytes: 0,
            length: 0,
        };
        loop {
            word = word.after(b'0' + (number % 10) as u8);
            number /= 10;
            if number == 0 {
                return word;
            }
        }
    }

    /// A comma and the digits of a number below 10^7: a speed, or cycles of one tick.
    fn field(number: u64) -> Word {
        Word::digits(number).after(b',')
    }

    /// This text after one more byte.
    fn after(self, byte: u8) -> Word {
        Word {
            bytes: self.bytes << 8 | u64::from(byte),
            length: self.length + 1,
        }
    }

    /// The digits of the number after this one, whose last digit is not 9.
    fn next(self) -> Word {
        Word {
            bytes: self.bytes + (1 << (8 * (self.length - 1))),
            length: self.length,
        }
    }

    /// Writes the word, and zero bytes up to eight; gives the place after the text.
    fn write(self, line: &mut [u8], at: usize) -> usize {
        line[at..at + 8].copy_from_slice(&self.bytes.to_le_bytes());
        at + self.length
    }
}

/// The fields of tasks that got nothing.
const ZEROS: [u8; 2 * TASKS] = *b",0,0,0,0,0,0,0,0,0,0,0,0,0,0,0,0";

/// The room for a tick's line: its tick, 18 fields and the line's end, each written as
/// a word, and the zeros that are written past their place.
const ROOM: usize = 20 * 8 + ZEROS.len();

/// The lines so far.
struct Lines {
    /// The text, and zero bytes where the next lines will stand.
    bytes: Vec<u8>,
    /// The length of the text.
    length: usize,
    tasks: usize,
    /// The last tick's number.
    tick: Word,
    /// The last tick's speed and its field.
    speed: u64,
    speed_field: Word,
}

impl Lines {
    /// No lines, with the bytes that so many ticks are likely to take.
    fn new(tasks: usize, ticks: usize) -> Lines {
        Lines {
            bytes: vec![0; ticks * (2 * tasks + 20) + ROOM],
            length: 0,
            tasks,
            tick: Word::digits(0),
            speed: 0,
            speed_field: Word::ZERO_FIELD,
        }
    }

    /// The whole text, with its last line: a word and numbers of any size.
    fn ended(mut self, word: &[u8], numbers: &[u64]) -> Vec<u8> {
        self.bytes.truncate(self.length);
        self.bytes.extend_from_slice(word);
        for &number in numbers {
            self.bytes.push(b',');
            push_number(&mut self.bytes, number);
        }
        self.bytes.extend_from_slice(b"\r\n");
        self.bytes
    }
}

impl Watch for Lines {
    /// A tick's line: tick, speed, grants of tasks 1 to n, idle.
    #[inline]
    fn tick(&mut self, t: u64, played: &Played) {
        if self.bytes.len() < self.length + ROOM {
            self.bytes.resize(2 * self.bytes.len(), 0);
        }
        self.tick = match t % 10 {
            0 => Word::digits(t),
            _ => self.tick.next(),
        };
        if self.speed != played.speed {
            self.speed = played.speed;
            self.speed_field = Word::field(played.speed);
        }
        // None and the whole speed are the most usual numbers of cycles.
        let field = |cycles| match cycles {
            0 => Word::ZERO_FIELD,
            _ if cycles == played.speed => self.speed_field,
            _ => Word::field(cycles),
        };
        let line = &mut self.bytes[self.length..self.length + ROOM];
        let mut at = self.tick.write(line, 0);
        at = self.speed_field.write(line, at);
        let mut written = 0;
        let mut granted = played.granted;
        while granted != 0 {
            let task = granted.trailing_zeros() as usize % TASKS;
            granted &= granted - 1;
            at = write_zeros(line, at, task - written);
            at = field(played.grants[task]).write(line, at);
            written = task + 1;
        }
        at = write_zeros(line, at, self.tasks - written);
        at = field(played.idle).write(line, at);
        line[at..at + 2].copy_from_slice(b"\r\n");
        self.length += at + 2;
    }
}

/// Writes the fields of so many tasks that got nothing.
fn write_zeros(line: &mut [u8], at: usize, tasks: usize) -> usize {
    line[at..at + ZEROS.len()].copy_from_slice(&ZEROS);
    at + 2 * tasks
}

/// Adds the digits of any number.
fn push_number(bytes: &mut Vec<u8>, number: u64) {
    if number >= 10 {
        push_number(bytes, number / 10);
    }
    bytes.push(b'0' + (number % 10) as u8);
}
