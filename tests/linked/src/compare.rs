//! What differs between two answers, in words.

use crate::calls::Call;
use crate::fields::places;
use piszczalin::raw;
use std::mem::offset_of;

/// A part of an answer: its name, its first byte and its width.
type Part = (String, usize, usize);

/// A part of one word.
fn word(name: &str, offset: usize) -> Part {
    (name.to_string(), offset, 8)
}

/// The parts of a state that begins at this byte.
fn state_parts(begin: usize) -> Vec<Part> {
    let mut parts = Vec::new();
    for place in places() {
        let (offset, width) = place.span();
        parts.push((place.name(), begin + offset, width));
    }
    parts
}

/// The parts of a number and a state.
fn with_state(number: usize, state: usize) -> Vec<Part> {
    let mut parts = vec![word("number", number)];
    parts.extend(state_parts(state));
    parts
}

/// The parts of the answer to a call.
fn parts(call: &Call) -> Vec<Part> {
    match call {
        Call::Start(_) => with_state(
            offset_of!(raw::Started, number),
            offset_of!(raw::Started, state),
        ),
        Call::Now(_) => vec![
            word("number", offset_of!(raw::Told, number)),
            word("task", offset_of!(raw::Told, task)),
            word("deadline", offset_of!(raw::Told, deadline)),
            word("speed", offset_of!(raw::Told, speed)),
        ],
        Call::Tick { grants, .. } => {
            let mut parts = with_state(
                offset_of!(raw::Ticked, number),
                offset_of!(raw::Ticked, state),
            );
            for place in 0..grants.len() {
                let name = format!("grants[{place}]");
                parts.push((name, size_of::<raw::Ticked>() + 8 * place, 8));
            }
            parts
        }
        Call::Energy(_) => vec![
            word("number", offset_of!(raw::Used, number)),
            word("energy", offset_of!(raw::Used, energy)),
        ],
    }
}

/// The value of a part.
fn value(answer: &[u8], (_, offset, width): &Part) -> u64 {
    let mut word = [0; 8];
    word[..*width].copy_from_slice(&answer[*offset..offset + width]);
    u64::from_le_bytes(word)
}

/// The number of an answer: the first word of each.
pub fn number(answer: &[u8]) -> u64 {
    value(answer, &word("number", 0))
}

/// What the library's answer is compared with: its name and its bytes.
type Other<'a> = (&'a str, &'a [u8]);

/// Each part of two answers that differs, a line each.
pub fn differences(call: &Call, library: &[u8], other: Other) -> Vec<String> {
    differing(parts(call), library, other)
}

/// Values by the names of their parts, which a document says of an answer.
pub type Named = &'static [(&'static str, u64)];

/// Each part of the library's answer that is not what the document says, a line each.
pub fn unlike(call: &Call, library: &[u8], named: Named) -> Vec<String> {
    let parts = parts(call);
    let mut lines = Vec::new();
    for (name, right) in named {
        let part = parts.iter().find(|part| part.0 == *name);
        let left = value(library, part.expect("a part of the answer"));
        if left != *right {
            lines.push(format!("  {name}: library {left}, document 01 {right}"));
        }
    }
    lines
}

/// Each place of two states that differs, a line each.
pub fn differences_of_states(library: &[u8], other: Other) -> Vec<String> {
    differing(state_parts(0), library, other)
}

/// Each of these parts that differs, a line each.
fn differing(parts: Vec<Part>, library: &[u8], (name, other): Other) -> Vec<String> {
    let mut lines = Vec::new();
    for part in parts {
        let (left, right) = (value(library, &part), value(other, &part));
        if left != right {
            lines.push(format!("  {}: library {left}, {name} {right}", part.0));
        }
    }
    lines
}

#[cfg(test)]
mod tests {
    use super::*;
    use piszczalin::raw::State;

    /// Every byte of an answer is in one part of it.
    #[test]
    fn parts_cover_every_byte_of_an_answer() {
        let calls = [
            Call::Start([const { Vec::new() }; 4]),
            Call::Now(State::default()),
            Call::Tick {
                state: State::default(),
                report: vec![0; 3],
                grants: vec![0; 4],
            },
            Call::Energy(State::default()),
        ];
        for call in &calls {
            let mut answer = Vec::new();
            call.second(&mut answer);
            let mut end = 0;
            for (name, offset, width) in parts(call) {
                assert_eq!(offset, end, "{name}");
                end = offset + width;
            }
            assert_eq!(end, answer.len());
            assert_eq!(end, call.answer_length());
        }
    }

    /// A byte that differs is told by the name of its place.
    #[test]
    fn a_difference_has_a_name() {
        let call = Call::Energy(State::default());
        let mut answer = Vec::new();
        call.second(&mut answer);
        let mut other = answer.clone();
        other[9] ^= 1;
        assert_eq!(number(&answer), 9);
        assert!(differences(&call, &answer, ("second", &answer)).is_empty());
        assert_eq!(
            differences(&call, &other, ("second", &answer)),
            ["  energy: library 256, second 0"]
        );
        assert!(unlike(&call, &answer, &[("number", 9), ("energy", 0)]).is_empty());
        assert_eq!(
            unlike(&call, &other, &[("number", 9), ("energy", 0)]),
            ["  energy: library 256, document 01 0"]
        );
    }
}
