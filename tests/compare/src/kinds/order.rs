//! Which number, which task, which speed: where several would do.

use super::Text;
use crate::draft::{Draft, Number};
use crate::model::play;
use crate::random::Random;
use crate::tables::{
    rising_speeds, small_table, table, LARGEST_RESERVE, LONGEST_PERIOD, MOST_VOLTS, TOP_SPEED,
};

/// Several numbers apply at once: the smallest is given.
pub fn smallest_number(random: &mut Random) -> Vec<Text> {
    let mut file = |_| {
        let mut draft = small_table(random);
        draft.ticks = random.between(0, 3);
        for _ in 0..random.between(1, 4) {
            let number = random.between(1, 8);
            spoil(random, &mut draft, number);
        }
        draft.text()
    };
    (0..300).map(&mut file).collect()
}

/// Makes this number apply, where the lines that are left let it.
fn spoil(random: &mut Random, draft: &mut Draft, number: Number) {
    let task = random.place(draft.tasks.len().max(1));
    let speed = random.place(draft.speeds.len().max(1));
    let period = random.pick(&[0, LONGEST_PERIOD + 1]);
    let reserve = random.pick(&[0, LARGEST_RESERVE + 1]);
    let faster = random.pick(&[0, 1, TOP_SPEED + 1]);
    let volts = random.pick(&[0, 1, MOST_VOLTS + 1]);
    match number {
        1 if random.once_in(3) => draft.tasks.clear(),
        2 if random.once_in(3) => draft.speeds.clear(),
        3 => set(&mut draft.tasks, task, |line| line.0 = period),
        4 => set(&mut draft.tasks, task, |line| line.1 = reserve),
        5 => set(&mut draft.speeds, speed, |line| line.0 = faster),
        6 => set(&mut draft.speeds, speed, |line| line.1 = volts),
        7 => set(&mut draft.tasks, task, |line| line.0 = 999_983),
        _ => set(&mut draft.tasks, task, |line| line.1 = 999_999_937),
    }
}

fn set(lines: &mut [(Number, Number)], place: usize, change: impl Fn(&mut (Number, Number))) {
    if let Some(line) = lines.get_mut(place) {
        change(line);
    }
}

/// Equal periods and equal deadlines: the lower number at a tie.
pub fn ties(random: &mut Random) -> Vec<Text> {
    let mut file = |_| {
        let period = random.between(1, 5);
        let count = random.between(2, 8) as usize;
        let times: &[Number] =
            random.pick(&[&[1][..], &[1, 2], &[1, 2, 4], &[1, 2, 3, 6], &[2, 3, 4]]);
        let periods: Vec<Number> = (0..count).map(|_| period * random.pick(times)).collect();
        let top = random.between(count as Number, 30);
        let speeds = rising_speeds(random, 3, top);
        let mut draft = table(random, &periods, speeds, 95);
        draft.ticks = random.between(4, 40);
        play(&mut draft, &mut |turn| {
            let early = random.between(turn.run + 1, turn.most());
            random.pick(&[0, 0, early])
        });
        draft.text()
    };
    (0..250).map(&mut file).collect()
}

/// Loads that a listed speed just carries, or just does not: compared exactly, with no rounding.
pub fn speeds_that_just_carry(random: &mut Random) -> Vec<Text> {
    let mut file = |place: usize| {
        let mut draft = small_table(random);
        let (load, great) = (draft.load(), draft.great_period());
        let exact = load.div_ceil(great);
        let lowest = match place % 3 {
            0 => exact,
            1 => (exact - 1).max(1),
            _ => exact + 1,
        };
        draft.speeds = vec![(lowest, 10), (lowest + 1, 20), (lowest + 41, 30)];
        draft.ticks = random.between(2, 20);
        play(&mut draft, &mut |turn| {
            if turn.run + 1 == turn.reserve || random.once_in(3) {
                turn.most()
            } else {
                0
            }
        });
        draft.text()
    };
    (0..200).map(&mut file).collect()
}
