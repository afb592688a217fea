//! Ordinary runs, short and long.

use super::Text;
use crate::draft::{Draft, Number};
use crate::model::play;
use crate::random::Random;
use crate::tables::{paper_table, table, MOST_VOLTS, TOP_SPEED};

/// Ordinary tables after the paper's recipe: short, medium and long periods in equal share.
pub fn ordinary(random: &mut Random) -> Vec<Text> {
    let mut file = |_| {
        let count = random.between(1, 16) as usize;
        let mut draft = paper_table(random, count);
        draft.ticks = random.between(5, 60);
        use_a_part(random, &mut draft);
        draft.text()
    };
    (0..700).map(&mut file).collect()
}

/// Each job uses its reserve, 90, 70 or 50 hundredths of it, or (0 here) a random part.
fn use_a_part(random: &mut Random, draft: &mut Draft) {
    let hundredths = random.pick(&[0, 0, 0, 0, 50, 70, 90, 100]);
    let mut needs = vec![0; draft.tasks.len()];
    play(draft, &mut |turn| {
        if turn.run == 0 {
            needs[turn.task] = part(random, hundredths, turn.reserve);
        }
        let need = needs[turn.task];
        if need <= turn.most() && hundredths < 100 {
            need
        } else {
            0
        }
    });
}

/// The cycles that a job will use, at least 1.
fn part(random: &mut Random, hundredths: Number, reserve: Number) -> Number {
    match hundredths {
        0 => random.between(1, reserve),
        _ => (reserve * hundredths / 100).max(1),
    }
}

/// Runs of 10,000 ticks, with finishes in every so many ticks.
pub fn ten_thousand_ticks(random: &mut Random) -> Vec<Text> {
    let mut files: Vec<Text> = (0..26).map(|place| long_run(random, place)).collect();
    files.push(longest_lines());
    files.push(most_energy());
    files.push(cost_file());
    files
}

fn long_run(random: &mut Random, place: usize) -> Text {
    let count = [1, 2, 3, 5, 8, 10, 15, 16][place % 8];
    let mut draft = paper_table(random, count);
    draft.ticks = 10_000;
    let apart = random.pick(&[10, 10, 15, 100, 20_000]);
    finish_apart(random, &mut draft, apart);
    draft.text()
}

/// Lets a job finish once in so many ticks, at most 1,000 in all.
fn finish_apart(random: &mut Random, draft: &mut Draft, apart: Number) {
    let mut done = 0;
    play(draft, &mut |turn| {
        if done == 1_000 || turn.tick < done * apart {
            return 0;
        }
        done += 1;
        random.between(turn.run + 1, turn.most())
    });
}

/// Lines of ticks as long as they can be: 16 grants and idle cycles, all of many digits.
fn longest_lines() -> Text {
    let grant = |task: usize| if task < 9 { 100_000 } else { 10_000 };
    let tasks = (0..16).map(|task| (1, grant(task))).collect();
    Draft::of(tasks, vec![(TOP_SPEED, MOST_VOLTS)], 10_000).text()
}

/// The most energy: top speed and most volts in every one of 10,000 ticks, nothing idle.
fn most_energy() -> Text {
    let tasks = vec![(1_000, 1_000_000_000)];
    Draft::of(tasks, vec![(TOP_SPEED, MOST_VOLTS)], 10_000).text()
}

/// 16 tasks, 8 speeds, 1,000 end lines, 10,000 ticks: what the cost is measured on.
pub fn cost_file() -> Text {
    let random = &mut Random::of_kind(100);
    let periods = [
        4, 5, 6, 8, 10, 12, 15, 20, 24, 30, 40, 60, 80, 120, 240, 1_200,
    ];
    let speeds = (1..=8).map(|step| (1_000 * step, 10 + 5 * step)).collect();
    let mut draft = table(random, &periods, speeds, 98);
    draft.ticks = 10_000;
    finish_apart(random, &mut draft, 10);
    draft.text()
}

/// End lines 999, 1,000 and 1,001, all allowed by rule 4: 16 finishes in each tick.
pub fn thousand_end_lines(random: &mut Random) -> Vec<Text> {
    let mut files = Vec::new();
    for count in [999, 1_000, 1_001] {
        for reserve in [1, 9, 60_000] {
            let speeds = vec![(4 * reserve, 20), (16 * reserve, 30)];
            let mut draft = Draft::of(vec![(1, reserve); 16], speeds, 70);
            play(&mut draft, &mut |turn| random.between(1, turn.reserve));
            draft.ends.truncate(count);
            files.push(draft.text());
        }
    }
    files
}
