//! What differs, and how it is told.

use crate::judge::Verdict;
use crate::kinds::Case;
use std::fs;
use std::path::Path;

/// The differences of at most so many files are told.
const TOLD: usize = 5;

/// Where the files of differences go, for replay.
const FOLDER: &str = "target/differences";

/// Compares all bytes; the difference in words, if there is one.
pub fn between(name: &str, answer: &[u8], other: &str, expected: &[u8]) -> Option<String> {
    if answer == expected {
        return None;
    }
    let pairs = answer.iter().zip(expected);
    let place = pairs.take_while(|(left, right)| left == right).count();
    let line = answer[..place]
        .iter()
        .filter(|&&byte| byte == b'\n')
        .count()
        + 1;
    let (left, right) = (line_at(answer, place), line_at(expected, place));
    Some(format!(
        "byte {place}, in line {line}\n  {name}: {left}\n  {other}: {right}"
    ))
}

/// The line in which a byte stands, its line end written out.
fn line_at(text: &[u8], place: usize) -> String {
    let before = text[..place].iter().rposition(|&byte| byte == b'\n');
    let rest = &text[before.map_or(0, |end| end + 1)..];
    match rest.split_inclusive(|&byte| byte == b'\n').next() {
        None => "(the text ends before)".to_string(),
        Some(line) => line[..line.len().min(300)].escape_ascii().to_string(),
    }
}

/// Tells the differences of the shortest files and writes these; gives the count of all.
pub fn tell(cases: &[Case], verdicts: &[Verdict]) -> usize {
    let mut differing: Vec<&Verdict> = verdicts.iter().collect();
    differing.retain(|verdict| !verdict.differences.is_empty());
    differing.sort_by_key(|verdict| cases[verdict.case].text.len());
    for verdict in differing.iter().take(TOLD) {
        let (number, case) = (verdict.case, &cases[verdict.case]);
        for words in &verdict.differences {
            println!("difference: kind '{}', case {number}: {words}", case.kind);
        }
        println!("  file: {}", keep(number, case));
    }
    differing.len()
}

/// Writes a file for replay; gives its path, or why there is none.
fn keep(number: usize, case: &Case) -> String {
    let name = case.kind.replace(' ', "-");
    let path = Path::new(FOLDER).join(format!("{number}-{name}.csv"));
    let written = fs::create_dir_all(FOLDER).and_then(|()| fs::write(&path, &case.text));
    match written {
        Ok(()) => path.display().to_string(),
        Err(error) => format!("not written: {error}"),
    }
}
