//! Run files: the reader. A text that is no run file gives nothing.

use crate::table::{SPEEDS, TASKS};

/// The most bytes of a run file.
pub const LONGEST_TEXT: usize = 65_536;

const MOST_ENDS: usize = 1_000;
const MOST_TICKS: u64 = 10_000;

/// An end line.
#[derive(Clone, Copy, Debug)]
pub(crate) struct End {
    /// The tick in which the job finishes.
    pub tick: u64,
    /// The task, from 1.
    pub task: u64,
    /// The total cycles at which the job finishes.
    pub cycles: u64,
}

impl End {
    /// The task's place in the lists.
    pub fn place(&self) -> usize {
        self.task as usize - 1
    }
}

/// What a run file says. Its tables are not yet tested: that is left to start.
#[derive(Clone, Debug, Default)]
pub struct RunFile {
    /// The periods and reserves of the task lines.
    pub(crate) periods: Vec<u64>,
    pub(crate) reserves: Vec<u64>,
    /// The speeds and volts of the speed lines.
    pub(crate) speeds: Vec<u64>,
    pub(crate) volts: Vec<u64>,
    /// The end lines, rising strictly by tick and then task.
    pub(crate) ends: Vec<End>,
    /// The ticks of the run line.
    pub(crate) ticks: u64,
}

impl RunFile {
    /// Reads a text; nothing when it is not a run file (number 14).
    pub fn read(text: &[u8]) -> Option<RunFile> {
        if text.len() > LONGEST_TEXT {
            return None;
        }
        let mut text = Text { rest: text };
        let mut file = RunFile::default();
        while text.begins(b"task,") {
            let [period, reserve] = text.fields()?;
            file.periods.push(period);
            file.reserves.push(reserve);
        }
        while text.begins(b"speed,") {
            let [speed, volts] = text.fields()?;
            file.speeds.push(speed);
            file.volts.push(volts);
        }
        while text.begins(b"end,") {
            let [tick, task, cycles] = text.fields()?;
            file.ends.push(End { tick, task, cycles });
        }
        if !text.begins(b"run,") {
            return None;
        }
        [file.ticks] = text.fields()?;
        (text.rest.is_empty() && file.keeps_limits() && file.good_ends()).then_some(file)
    }

    /// Whether there are at most so many lines of each group, and so many ticks.
    fn keeps_limits(&self) -> bool {
        self.periods.len() <= TASKS
            && self.speeds.len() <= SPEEDS
            && self.ends.len() <= MOST_ENDS
            && self.ticks <= MOST_TICKS
    }

    /// Whether the end lines rise strictly by tick and then task, and each names a task that
    /// exists, a tick below the run's, and at least 1 cycle.
    fn good_ends(&self) -> bool {
        let tasks = 1..=self.periods.len() as u64;
        let rise = |pair: &[End]| (pair[0].tick, pair[0].task) < (pair[1].tick, pair[1].task);
        self.ends.windows(2).all(rise)
            && self
                .ends
                .iter()
                .all(|end| tasks.contains(&end.task) && end.tick < self.ticks && end.cycles >= 1)
    }
}

/// The text not yet read.
struct Text<'a> {
    rest: &'a [u8],
}

impl Text<'_> {
    /// Takes a line's first bytes if they are these.
    fn begins(&mut self, word: &[u8]) -> bool {
        match self.rest.strip_prefix(word) {
            Some(rest) => {
                self.rest = rest;
                true
            }
            None => false,
        }
    }

    /// Takes the rest of a line: N fields with a comma between, and the line's end.
    fn fields<const N: usize>(&mut self) -> Option<[u64; N]> {
        let mut fields = [0; N];
        for (place, field) in fields.iter_mut().enumerate() {
            if place > 0 && !self.begins(b",") {
                return None;
            }
            *field = self.number()?;
        }
        // LF, CR LF, or the end of the text.
        let ended = self.begins(b"\n") || self.begins(b"\r\n") || self.rest.is_empty();
        ended.then_some(fields)
    }

    /// Takes a field of digits: no sign, no leading zero except 0 itself, 64 bits.
    fn number(&mut self) -> Option<u64> {
        let mut number = self.digit()?;
        while let Some(digit) = self.digit() {
            if number == 0 {
                return None;
            }
            number = number.checked_mul(10)?.checked_add(digit)?;
        }
        Some(number)
    }

    /// Takes a digit, if one comes next.
    fn digit(&mut self) -> Option<u64> {
        let (byte, rest) = self.rest.split_first()?;
        if !byte.is_ascii_digit() {
            return None;
        }
        self.rest = rest;
        Some(u64::from(byte - b'0'))
    }
}
