//! Every file through the programs, in two threads.

use crate::arguments::Arguments;
use crate::differences::between;
use crate::kinds::Case;
use crate::programs::{once, Answer, Many, LONGEST_FRAME};
use std::thread;

/// What came of one file.
pub struct Verdict {
    /// The case number.
    pub case: usize,
    /// The last line that the bench printed.
    pub last: String,
    /// What differs, in words.
    pub differences: Vec<String>,
}

/// The verdicts on all files, by case number.
pub fn judge(cases: &[Case], arguments: &Arguments) -> Vec<Verdict> {
    let judged = thread::scope(|scope| {
        let start = |share| scope.spawn(move || judge_share(cases, share, arguments));
        [0, 1]
            .map(start)
            .map(|thread| thread.join().expect("a thread ends"))
    });
    let mut verdicts: Vec<Verdict> = judged.into_iter().flatten().collect();
    verdicts.sort_by_key(|verdict| verdict.case);
    verdicts
}

/// Judges every other group of N files, so that those for the bench are shared evenly too.
fn judge_share(cases: &[Case], share: usize, arguments: &Arguments) -> Vec<Verdict> {
    let places: Vec<usize> = (0..cases.len())
        .filter(|place| place / arguments.every % 2 == share)
        .collect();
    match &arguments.many {
        None => places
            .iter()
            .map(|&place| one_by_one(cases, place, arguments))
            .collect(),
        Some(words) => with_many(cases, &places, arguments, words),
    }
}

/// A file through second and bench.
fn one_by_one(cases: &[Case], place: usize, arguments: &Arguments) -> Verdict {
    let text = &cases[place].text;
    let second = once(&arguments.second, text);
    verdict(
        cases,
        place,
        second,
        vec![("bench", once(&arguments.bench, text))],
    )
}

/// Files through second, the program for many files, and some through bench.
fn with_many(
    cases: &[Case],
    places: &[usize],
    arguments: &Arguments,
    words: &[String],
) -> Vec<Verdict> {
    let framed = places.iter().filter(|&&place| fits(&cases[place]));
    let texts: Vec<&[u8]> = framed.map(|&place| &cases[place].text[..]).collect();
    thread::scope(|scope| {
        let mut many = Many::start(scope, words, texts);
        let mut verdicts = Vec::new();
        for &place in places {
            let case = &cases[place];
            let mut answers = Vec::new();
            if case.kept || !fits(case) || place % arguments.every == 0 {
                answers.push(("bench", once(&arguments.bench, &case.text)));
            }
            if fits(case) {
                answers.push(("many", many.next()));
            }
            let second = once(&arguments.second, &case.text);
            verdicts.push(verdict(cases, place, second, answers));
        }
        if let (Err(error), Some(last)) = (many.end(), verdicts.last_mut()) {
            last.differences.push(format!("many: {error}"));
        }
        verdicts
    })
}

/// Whether a file goes into a frame.
fn fits(case: &Case) -> bool {
    case.text.len() <= LONGEST_FRAME
}

/// Compares all bytes of the answers.
fn verdict(cases: &[Case], place: usize, second: Answer, answers: Vec<(&str, Answer)>) -> Verdict {
    let last = answers.iter().find_map(|(_, answer)| answer.as_ref().ok());
    let last = last.map_or(String::new(), |answer| last_line(answer));
    let mut differences: Vec<String> = answers
        .iter()
        .filter_map(|(name, answer)| differs(name, answer, "second", &second))
        .collect();
    if let Some(expected) = &cases[place].expected {
        let expected = Ok(expected.clone());
        differences.extend(differs("second", &second, "expected", &expected));
    }
    Verdict {
        case: place,
        last,
        differences,
    }
}

/// The difference of two answers in words; no answer is a difference too.
fn differs(name: &str, answer: &Answer, other: &str, expected: &Answer) -> Option<String> {
    match (answer, expected) {
        (Ok(answer), Ok(expected)) => between(name, answer, other, expected),
        (Err(error), _) => Some(format!("{name}: {error}")),
        (_, Err(error)) => Some(format!("{other}: {error}")),
    }
}

/// The last line without its line end.
fn last_line(answer: &[u8]) -> String {
    let text = String::from_utf8_lossy(answer);
    text.lines().last().unwrap_or_default().to_string()
}
