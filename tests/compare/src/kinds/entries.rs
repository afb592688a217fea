//! Reports: entries that rule 4 allows and entries that break it.

use super::Text;
use crate::draft::{End, Number};
use crate::model::{ends, play, Model, Turn};
use crate::random::Random;
use crate::tables::small_table;

/// Cut against finish at the reserve: an entry equal to the reserve, or 0, in the same tick.
pub fn at_the_reserve(random: &mut Random) -> Vec<Text> {
    let mut file = |_| {
        let mut draft = small_table(random);
        draft.ticks = random.between(3, 24);
        play(&mut draft, &mut |turn| {
            let reached = turn.most() == turn.reserve;
            if reached && random.once_in(2) {
                turn.reserve
            } else {
                0
            }
        });
        draft.text()
    };
    (0..250).map(&mut file).collect()
}

/// Entries needing run < u <= reserve and u - run <= what is left, often at the very edge.
pub fn allowed(random: &mut Random) -> Vec<Text> {
    let mut file = |_| {
        let mut draft = small_table(random);
        draft.ticks = random.between(1, 24);
        play(&mut draft, &mut |turn| within(random, turn));
        draft.text()
    };
    (0..300).map(&mut file).collect()
}

/// 0, the lowest or the highest entry allowed, or one between.
fn within(random: &mut Random, turn: &Turn) -> Number {
    let between = random.between(turn.run + 1, turn.most());
    random.pick(&[0, 0, turn.run + 1, turn.most(), between])
}

/// Entries for a job that is over, not reached, above what is left, not above run, above the reserve.
pub fn refused(random: &mut Random) -> Vec<Text> {
    let mut file = |_| {
        let mut draft = small_table(random);
        draft.ticks = random.between(0, 12);
        let model = play(&mut draft, &mut |turn| seldom(random, turn));
        let turns = model.turns(&mut |turn| seldom(random, turn));
        let mut ways = breaking(&model, &turns);
        ways.retain(|way| !way.is_empty());
        let place = random.place(ways.len());
        let (task, entry) = random.pick(&ways[place]);
        let broken = (draft.ticks, task as Number + 1, entry);
        draft.ends.extend(with_broken(&turns, broken));
        draft.ticks += random.between(1, 3);
        draft.text()
    };
    (0..500).map(&mut file).collect()
}

/// An entry that is allowed, in one turn of four.
fn seldom(random: &mut Random, turn: &Turn) -> Number {
    let entry = within(random, turn);
    random.pick(&[0, 0, 0, entry])
}

/// A task's place and an entry for it.
type Entry = (usize, Number);

/// The entries that break rule 4 in this tick, by the way in which they do.
fn breaking(model: &Model, turns: &[Turn]) -> Vec<Vec<Entry>> {
    let over = |(task, run, reserve)| [1, run, run + 1, reserve].map(|entry| (task, entry));
    let reached = |turn: &Turn| turn.left > 0;
    let not_reached = |turn: &Turn| turn.left == 0;
    let begun = |turn: &Turn| turn.left > 0 && turn.run > 0;
    vec![
        model.over().into_iter().flat_map(over).collect(),
        entries(turns, not_reached, |turn| [1, turn.run + 1, turn.reserve]),
        entries(turns, begun, |turn| [1, turn.run.div_ceil(2), turn.run]),
        entries(turns, reached, |turn| above(turn.run + turn.left)),
        entries(turns, reached, |turn| above(turn.reserve)),
        entries(turns, reached, |turn| above((1 << 63) + turn.run)),
        entries(turns, reached, |_| above((1 << 64) - 11)),
    ]
}

/// One, two and ten above.
fn above(number: Number) -> [Number; 3] {
    [number + 1, number + 2, number + 10]
}

/// Three entries for each turn of a sort.
fn entries(
    turns: &[Turn],
    sort: impl Fn(&Turn) -> bool,
    three: impl Fn(&Turn) -> [Number; 3],
) -> Vec<Entry> {
    let chosen = turns.iter().filter(|turn| sort(turn));
    let each = |turn: &Turn| three(turn).map(|entry| (turn.task, entry));
    chosen.flat_map(each).collect()
}

/// The tick's end lines with the broken one in its task's place.
fn with_broken(turns: &[Turn], broken: End) -> Vec<End> {
    let mut lines = ends(turns);
    lines.retain(|end| end.1 != broken.1);
    lines.push(broken);
    lines.sort();
    lines
}
