//! States of any bytes: random ones, and sound states with bytes changed, the marks too.

use crate::boundary::{self, of_bytes, BYTES};
use crate::desk::Desk;
use crate::random::Random;
use crate::{reports, states};
use second::TASKS;

/// Bytes that are no marks: either side of the first and the last of them.
const NO_MARKS: [u8; 6] = [2, 3, 127, 128, 254, 255];

/// A byte.
fn byte(random: &mut Random) -> u8 {
    random.word() as u8
}

/// A state of random bytes, its marks too or only the rest.
pub fn random(random: &mut Random, _: usize, desk: &mut Desk) {
    let mut bytes = [0; BYTES];
    bytes.fill_with(|| byte(random));
    let mut state = of_bytes(&bytes);
    if random.once_in(2) {
        state.jobs.over = state.jobs.over.map(|mark| mark & 1);
    }
    let report = (0..random.place(21)).map(|_| random.word()).collect();
    desk.all_of(&state, report);
}

/// A sound state with each of its bytes changed in turn.
pub fn one_changed(random: &mut Random, _: usize, desk: &mut Desk) {
    let state = states::sound(random);
    let report = reports::fitting(random, &state, 2);
    let mut bytes = [0; BYTES];
    bytes.copy_from_slice(boundary::bytes(&boundary::state(&state)));
    for place in 0..BYTES {
        let mut changed = bytes;
        changed[place] ^= random.between(1, 255) as u8;
        desk.all_of(&of_bytes(&changed), report.clone());
    }
}

/// A sound state with each of its marks in turn no mark, in used places and in unused ones.
pub fn one_mark(random: &mut Random, _: usize, desk: &mut Desk) {
    let state = states::sound(random);
    let report = reports::any(random, &state);
    for place in 0..TASKS {
        let mut changed = boundary::state(&state);
        changed.jobs.over[place] = random.pick(&NO_MARKS);
        desk.all_of(&changed, report.clone());
    }
}

/// A state of any kind with random bytes for some of its marks; 9 comes before every other number.
pub fn some_marks(random: &mut Random, _: usize, desk: &mut Desk) {
    let state = match random.once_in(4) {
        true => states::shaped(random),
        false => states::sound(random),
    };
    let mut changed = boundary::state(&state);
    for mark in &mut changed.jobs.over {
        if random.once_in(8) {
            *mark = byte(random);
        }
    }
    let report = (0..random.place(21)).map(|_| random.between(0, 3));
    desk.all_of(&changed, report.collect());
}
