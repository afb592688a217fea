//! What was met: calls by kind, numbers by call, places whose change made a state unsound.

use crate::calls::CALLS;
use crate::fields::{places, PLACES};
use crate::kinds::KINDS;

/// The numbers that each of the four calls gives; 12 comes from none.
const NUMBERS: [&[usize]; CALLS.len()] = [
    &[0, 1, 2, 3, 4, 5, 6, 7, 8],
    &[0, 9, 10],
    &[0, 9, 10, 11, 13],
    &[0, 9],
];
/// All numbers above have one column.
const OTHER: usize = 14;
/// The fewest calls of a comparison.
const FEWEST: u64 = 1_000_000;

pub struct Tally {
    by_kind: [u64; KINDS.len()],
    numbers: [[u64; OTHER + 1]; CALLS.len()],
    /// Whether a change of this place alone made a sound state unsound.
    unsound: [bool; PLACES],
    pub differences: u64,
}

impl Tally {
    pub fn new() -> Tally {
        Tally {
            by_kind: [0; KINDS.len()],
            numbers: [[0; OTHER + 1]; CALLS.len()],
            unsound: [false; PLACES],
            differences: 0,
        }
    }

    /// Counts the library's answer to one call; `changed` is the one place that was changed in a sound state.
    pub fn count(&mut self, kind: usize, call: usize, number: u64, changed: Option<usize>) {
        self.by_kind[kind] += 1;
        self.numbers[call][OTHER.min(number as usize)] += 1;
        if let (Some(place), 9) = (changed, number) {
            self.unsound[place] = true;
        }
    }

    /// Adds what another thread counted.
    pub fn add(&mut self, other: &Tally) {
        let pairs = self.by_kind.iter_mut().zip(&other.by_kind);
        pairs.for_each(|(sum, more)| *sum += more);
        let pairs = self.numbers.as_flattened_mut().iter_mut();
        pairs
            .zip(other.numbers.as_flattened())
            .for_each(|(sum, more)| *sum += more);
        let pairs = self.unsound.iter_mut().zip(&other.unsound);
        pairs.for_each(|(sum, more)| *sum |= more);
        self.differences += other.differences;
    }

    /// All calls.
    pub fn calls(&self) -> u64 {
        self.by_kind.iter().sum()
    }

    /// Prints what was met; false where something was not, or where an answer differed.
    pub fn tell(&self) -> bool {
        self.tell_kinds();
        self.tell_numbers();
        let missing = self.missing();
        for line in &missing {
            println!("{line}");
        }
        println!(
            "nonsense: {} calls, {} differences",
            grouped(self.calls()),
            grouped(self.differences)
        );
        missing.is_empty() && self.differences == 0
    }

    fn tell_kinds(&self) {
        println!("calls by kind of inputs");
        for (kind, count) in KINDS.iter().zip(&self.by_kind) {
            println!("{:>12}  {}", grouped(*count), kind.name);
        }
    }

    fn tell_numbers(&self) {
        let cells: Vec<String> = CALLS.iter().map(|name| format!("{name:>12}")).collect();
        println!("answers by number{}", cells.concat());
        for number in 0..=OTHER {
            let counts = self.numbers.iter().map(|numbers| numbers[number]);
            let cells: Vec<String> = counts
                .map(|count| format!("{:>12}", grouped(count)))
                .collect();
            let name = match number {
                OTHER => "others".to_string(),
                _ => number.to_string(),
            };
            println!("{name:>17}{}", cells.concat());
        }
    }

    /// What should have been met and was not, or the other way round, a line each.
    fn missing(&self) -> Vec<String> {
        let mut lines = Vec::new();
        for ((call, numbers), given) in CALLS.iter().zip(&self.numbers).zip(NUMBERS) {
            for (number, count) in numbers.iter().enumerate() {
                match (*count > 0, given.contains(&number)) {
                    (false, true) => lines.push(format!("{call} never gave {number}")),
                    (true, false) => lines.push(format!("{call} gave {number} or more")),
                    _ => (),
                }
            }
        }
        for (kind, count) in KINDS.iter().zip(&self.by_kind) {
            if *count == 0 {
                lines.push(format!("kind '{}' was not played", kind.name));
            }
        }
        for (place, unsound) in places().iter().zip(&self.unsound) {
            if !unsound {
                let name = place.name();
                lines.push(format!("no change of {name} alone made a state unsound"));
            }
        }
        if self.calls() < FEWEST {
            lines.push(format!("fewer than {} calls", grouped(FEWEST)));
        }
        lines
    }
}

impl Default for Tally {
    fn default() -> Tally {
        Tally::new()
    }
}

/// A number with commas, as 1,000,000.
pub fn grouped(number: u64) -> String {
    let digits = number.to_string();
    let mut grouped = String::new();
    for (place, digit) in digits.chars().enumerate() {
        if place > 0 && (digits.len() - place) % 3 == 0 {
            grouped.push(',');
        }
        grouped.push(digit);
    }
    grouped
}

#[cfg(test)]
mod tests {
    use super::*;

    #[test]
    fn numbers_have_commas() {
        assert_eq!(grouped(0), "0");
        assert_eq!(grouped(999), "999");
        assert_eq!(grouped(1_000), "1,000");
        assert_eq!(grouped(12_345_678), "12,345,678");
    }

    /// Nothing met is not enough.
    #[test]
    fn an_empty_tally_misses_all() {
        let missing = Tally::new().missing();
        assert_eq!(
            missing.len(),
            NUMBERS.concat().len() + KINDS.len() + PLACES + 1
        );
    }
}
