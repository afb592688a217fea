//! Reports and grants lists: every length, and edge values at each place.

use crate::desk::Desk;
use crate::random::Random;
use crate::{reports, states};

/// The lengths that are tried: 0 to 20.
const LENGTHS: usize = 21;

/// A state of any kind with report and grants of each pair of lengths.
pub fn lengths(random: &mut Random, round: usize, desk: &mut Desk) {
    let state = match round % 10 {
        0 => states::shaped(random),
        _ => states::sound(random),
    };
    for pair in 0..LENGTHS * LENGTHS {
        let mut report = reports::any(random, &state);
        report.resize(pair / LENGTHS, random.between(0, 1));
        desk.tick(&state, report, pair % LENGTHS);
    }
}

/// A sound state with a fitting report, and each of its places with each edge value.
pub fn edge_values(random: &mut Random, _: usize, desk: &mut Desk) {
    let state = states::sound(random);
    let (_, _, speed) = second::now(&state);
    let report = reports::fitting(random, &state, 2);
    let left = random.pick(&[speed, speed / 2]);
    for task in 0..report.len() {
        for entry in reports::edges_of(&state, task, left) {
            let mut report = report.clone();
            report[task] = entry;
            desk.report(&state, report);
        }
    }
}
