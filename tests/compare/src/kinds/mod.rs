//! The run files of a comparison, by kinds, all from one fixed seed.

mod damage;
mod entries;
mod known;
mod limits;
mod order;
mod ordinary;

pub use ordinary::cost_file;

use crate::random::Random;
use known::Known;

/// The bytes of a run file, or of a text that is none.
pub type Text = Vec<u8>;

/// A kind's name and the function that writes its files.
type Kind = (&'static str, fn(&mut Random) -> Vec<Text>);

/// The same of files that come with their answers.
type KnownKind = (&'static str, fn() -> Vec<Known>);

const KINDS: [Kind; 25] = [
    ("ordinary tables", ordinary::ordinary),
    ("ten thousand ticks", ordinary::ten_thousand_ticks),
    ("thousand end lines", ordinary::thousand_end_lines),
    ("counts of lines", limits::counts_of_lines),
    ("ranges of fields", limits::ranges_of_fields),
    ("largest tables", limits::largest_tables),
    ("great period", limits::great_periods),
    ("load at top speed", limits::loads),
    ("ticks of the run line", limits::ticks),
    ("bytes of the text", limits::bytes),
    ("smallest number", order::smallest_number),
    ("ties", order::ties),
    ("speed carries load", order::speeds_that_just_carry),
    ("finish or cut at reserve", entries::at_the_reserve),
    ("entries allowed", entries::allowed),
    ("entries refused", entries::refused),
    ("line ends", damage::line_ends),
    ("each byte damaged", damage::each_byte),
    ("bytes damaged at random", damage::at_random),
    ("fields damaged", damage::fields),
    ("lines damaged", damage::lines),
    ("end lines out of rule", damage::end_lines),
    ("truncated", damage::truncated),
    ("random lines", damage::random_lines),
    ("random bytes", damage::random_bytes),
];

/// The kinds whose answers document 01 tells.
const KNOWN: [KnownKind; 2] = [
    ("to be run", known::to_be_run),
    ("run file or none", known::run_files),
];

/// A run file to be compared.
pub struct Case {
    pub kind: String,
    pub text: Text,
    /// What the bench must print, where that is known.
    pub expected: Option<Vec<u8>>,
    /// Kept in a folder of run files, not generated.
    pub kept: bool,
}

/// Every generated file; its place is its case number.
pub fn generated() -> Vec<Case> {
    let mut cases = Vec::new();
    for (place, (kind, files)) in KINDS.iter().enumerate() {
        let texts = files(&mut Random::of_kind(place)).into_iter();
        cases.extend(texts.map(|text| case(kind, text, None)));
    }
    for (kind, files) in KNOWN {
        let known = files().into_iter();
        cases.extend(known.map(|(text, answer)| case(kind, text, Some(answer))));
    }
    cases
}

fn case(kind: &str, text: Text, expected: Option<Text>) -> Case {
    Case {
        kind: kind.to_string(),
        text,
        expected,
        kept: false,
    }
}
