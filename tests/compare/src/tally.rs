//! What was met, by kind and by number.

use crate::judge::Verdict;
use crate::kinds::Case;
use crate::random::SEED;

/// The numbers that the bench can give.
const NUMBERS: [u64; 11] = [0, 1, 2, 3, 4, 5, 6, 7, 8, 13, 14];

/// The number that a last line tells: 0 for a total.
fn number_of(last: &str) -> Option<u64> {
    match last.strip_prefix("refused,") {
        Some(number) => number.parse().ok(),
        None => last.starts_with("total,").then_some(0),
    }
}

/// The energy of a total line: the third of its numbers.
pub fn energy(last: &str) -> Option<u128> {
    last.strip_prefix("total,")?.split(',').nth(2)?.parse().ok()
}

/// Prints the cases by kind, with the numbers met in each; the kept ones are one kind.
pub fn by_kind(cases: &[Case], verdicts: &[Verdict]) {
    println!("seed {SEED}: cases by kind, with the numbers met");
    let kind_of = |case: &Case| {
        if case.kept {
            "kept files".to_string()
        } else {
            case.kind.clone()
        }
    };
    let mut first = 0;
    while first < cases.len() {
        let kind = kind_of(&cases[first]);
        let count = cases[first..]
            .iter()
            .take_while(|case| kind_of(case) == kind)
            .count();
        let met = &verdicts[first..first + count];
        let numbers = NUMBERS.iter().filter(|&&number| times(met, number) > 0);
        let told: Vec<String> = numbers
            .map(|&number| format!("{number}: {}", times(met, number)))
            .collect();
        println!("  {kind}: {count} ({})", told.join(", "));
        first += count;
    }
}

/// How often a number was met.
fn times(verdicts: &[Verdict], number: u64) -> usize {
    verdicts
        .iter()
        .filter(|verdict| number_of(&verdict.last) == Some(number))
        .count()
}

/// Prints the files by number; false where one was never met, or a file met none of them.
pub fn by_number(cases: &[Case], verdicts: &[Verdict]) -> bool {
    let mut good = true;
    let mut others = verdicts.len();
    for number in NUMBERS {
        let count = times(verdicts, number);
        println!("number {number}: {count}");
        if count == 0 {
            println!("number {number} was never met");
            good = false;
        }
        others -= count;
    }
    println!("totals with finishes inside: {}", finished(cases, verdicts));
    if others > 0 {
        println!("answers with none of these numbers: {others}");
    }
    good && others == 0
}

/// How many files with end lines came to their total.
fn finished(cases: &[Case], verdicts: &[Verdict]) -> usize {
    let ends = |verdict: &&Verdict| {
        cases[verdict.case]
            .text
            .windows(5)
            .any(|bytes| bytes == b"\nend,")
    };
    let totals = verdicts
        .iter()
        .filter(|verdict| number_of(&verdict.last) == Some(0));
    totals.filter(ends).count()
}
