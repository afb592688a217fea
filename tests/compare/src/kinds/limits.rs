//! Every limit at its edge and past it.

use super::Text;
use crate::draft::{Draft, Number};
use crate::random::Random;
use crate::tables::{small_table, LARGEST_RESERVE, LONGEST_PERIOD, MOST_VOLTS, TOP_SPEED};

const WORD: Number = 1 << 64;

/// The edge and what stands beside it, and numbers at and past 32, 63 and 64 bits.
fn edges(limit: Number) -> Vec<Number> {
    let near = [0, 1, 2, limit - 1, limit, limit + 1, 10 * limit];
    let mut edges = near.to_vec();
    for power in [1 << 32, 1 << 63, WORD] {
        edges.extend([power - 1, power, power + 1, power + 4]);
    }
    edges.extend([2, 10, 1_000].map(|times| times * WORD + 4));
    edges
}

/// One task and one speed.
fn one() -> Draft {
    let mut draft = Draft::of(vec![(4, 3)], vec![(4, 20)], 5);
    draft.ends.push((0, 1, 2));
    draft
}

/// Two tasks and three speeds.
fn two() -> Draft {
    let speeds = vec![(2, 20), (4, 30), (9, 40)];
    let mut draft = Draft::of(vec![(4, 3), (6, 5)], speeds, 7);
    draft.ends.push((0, 1, 1));
    draft
}

/// Tasks 0, 1, 16 and 17; speeds 0, 1, 8 and 9; no lines but the run line.
pub fn counts_of_lines(_: &mut Random) -> Vec<Text> {
    let mut files = Vec::new();
    for tasks in [0, 1, 2, 15, 16, 17, 18] {
        for speeds in [0, 1, 2, 7, 8, 9, 10] {
            let task = |place: Number| (1 + place % 4, 1 + place);
            let speed = |place: Number| (80 + 40 * place, 9 + place);
            let (task_lines, speed_lines) = ((0..tasks).map(task), (0..speeds).map(speed));
            let mut draft = Draft::of(task_lines.collect(), speed_lines.collect(), 4);
            files.push(draft.text());
            draft.ends.push((1, tasks.max(1), 1));
            files.push(draft.text());
        }
    }
    files
}

/// A field of a draft.
type Field = fn(&mut Draft) -> &mut Number;

/// The fields of task, speed and end lines, each with its limit.
const FIELDS: [(Number, Field); 8] = [
    (LONGEST_PERIOD, |draft| &mut draft.tasks[0].0),
    (LARGEST_RESERVE, |draft| &mut draft.tasks[0].1),
    (TOP_SPEED, |draft| &mut draft.speeds[0].0),
    (MOST_VOLTS, |draft| &mut draft.speeds[0].1),
    (MOST_VOLTS, last_volts),
    (6, |draft| &mut draft.ends[0].0),
    (2, |draft| &mut draft.ends[0].1),
    (3, |draft| &mut draft.ends[0].2),
];

fn last_volts(draft: &mut Draft) -> &mut Number {
    &mut draft.speeds.last_mut().expect("a speed").1
}

/// Period, reserve, speed and volts at 0, 1, their limit, past it, and at 2^63 and 2^64.
pub fn ranges_of_fields(_: &mut Random) -> Vec<Text> {
    let mut files = not_rising();
    for draft in [one(), two()] {
        for (limit, field) in FIELDS {
            files.extend(vary(&draft, limit, field));
        }
    }
    files
}

/// One file for each edge of a field.
fn vary(draft: &Draft, limit: Number, field: Field) -> Vec<Text> {
    let file = |edge| {
        let mut draft = draft.clone();
        *field(&mut draft) = edge;
        draft.text()
    };
    edges(limit).into_iter().map(file).collect()
}

/// Speeds strictly rising against equal and falling; volts never falling against falling.
fn not_rising() -> Vec<Text> {
    let with_middle = |middle| {
        let mut draft = two();
        draft.speeds[1] = middle;
        draft.text()
    };
    let speeds = [1, 2, 3, 8, 9, 10].map(|speed| with_middle((speed, 30)));
    let volts = [19, 20, 21, 39, 40, 41].map(|volts| with_middle((4, volts)));
    [speeds, volts].concat()
}

/// Period, reserve, speed and volts all at their limit, and one of them past it.
pub fn largest_tables(_: &mut Random) -> Vec<Text> {
    let mut files = Vec::new();
    for count in [1, 2, 16] {
        for speed in [1, 999, 1_000, TOP_SPEED] {
            let reserve = LARGEST_RESERVE / count;
            let long = vec![(LONGEST_PERIOD, reserve); count as usize];
            let short = vec![(1_000, reserve + 1); count as usize];
            files.extend([long, short].map(|tasks| at_top_speed(tasks, speed)));
        }
        let share = TOP_SPEED / count;
        let tasks = vec![(1, share); count as usize];
        files.extend([TOP_SPEED - 1, TOP_SPEED].map(|speed| at_top_speed(tasks.clone(), speed)));
    }
    let mut tasks = vec![(1, LARGEST_RESERVE); 16];
    tasks[7].0 = LONGEST_PERIOD;
    files.push(at_top_speed(tasks, TOP_SPEED));
    files
}

/// Three ticks at one speed and most volts.
fn at_top_speed(tasks: Vec<(Number, Number)>, speed: Number) -> Text {
    Draft::of(tasks, vec![(speed, MOST_VOLTS)], 3).text()
}

/// The great period at 1,000,000 and past it, far past 64 bits too.
pub fn great_periods(random: &mut Random) -> Vec<Text> {
    let lists: [&[Number]; 18] = [
        &[101, 9_901],
        &[2, 500_001],
        &[1_000, 1_001],
        &[1_000, 1_000_000],
        &[1_000_000, 1_000],
        &[999_999, 1_000_000],
        &[1_000_000, 999_999, 1],
        &[1, 1_000_000],
        &[2, 999_998],
        &[2, 999_999],
        &[64, 15_625],
        &[64, 15_625, 7],
        &[999, 1_001],
        &[1_000_000; 16],
        &[
            1, 2, 4, 5, 8, 10, 16, 20, 25, 32, 40, 50, 64, 125, 500, 15_625,
        ],
        &[1, 2, 3, 4, 5, 6, 7, 8, 9, 10, 11, 12, 13, 14, 15, 16],
        &[2, 3, 5, 7, 11, 13, 17, 19, 23, 29, 31, 37, 41, 43, 47, 53],
        &[
            999_983, 999_979, 999_961, 999_959, 999_953, 999_931, 999_917, 999_907, 999_883,
            999_863, 999_853,
        ],
    ];
    let mut files: Vec<Text> = lists.iter().map(|periods| of_periods(periods)).collect();
    files.extend((0..100).map(|_| of_periods(&near_the_limit(random))));
    files
}

/// Reserves of 1, so that only the great period decides.
fn of_periods(periods: &[Number]) -> Text {
    let tasks = periods.iter().map(|&period| (period, 1)).collect();
    Draft::of(tasks, vec![(16, 10)], 4).text()
}

/// Two or three periods whose product is about the limit.
fn near_the_limit(random: &mut Random) -> Vec<Number> {
    let first = random.between(2, 2_000);
    let second = LONGEST_PERIOD / first + random.between(0, 2);
    let third = random.pick(&[1, first, second, 2]);
    let mut periods = vec![first, second, third];
    random.shuffle(&mut periods);
    periods
}

/// Loads exactly at top speed x H, one below and one past.
pub fn loads(random: &mut Random) -> Vec<Text> {
    let mut files = Vec::new();
    for _ in 0..60 {
        let draft = small_table(random);
        let room = draft.carried() - draft.load();
        for reserve in [room.saturating_sub(1), room, room + 1] {
            let mut draft = draft.clone();
            draft.tasks.push((draft.great_period(), reserve));
            draft.ticks = random.between(0, 12);
            files.push(draft.text());
        }
    }
    files.push(b"task,1,50\nspeed,50,30\nrun,2\n".to_vec());
    files.push(b"task,1,51\nspeed,50,30\nrun,2\n".to_vec());
    files
}

/// Ticks of 0, 1, 10,000 and 10,001, and numbers at and past 64 bits.
pub fn ticks(_: &mut Random) -> Vec<Text> {
    let mut files = Vec::new();
    for mut draft in [one(), two()] {
        draft.ends.clear();
        files.extend(vary(&draft, 10_000, |draft| &mut draft.ticks));
        draft.tasks[0].1 = LARGEST_RESERVE;
        files.extend(vary(&draft, 10_000, |draft| &mut draft.ticks));
    }
    files
}

/// Texts of 65,536 and 65,537 bytes, the largest that keeps every other rule, and longer ones.
pub fn bytes(_: &mut Random) -> Vec<Text> {
    let mut files = vec![largest_text("\r\n"), largest_text("\n"), largest_played()];
    for length in [65_535, 65_536, 65_537] {
        for filling in "\n|0|1|\0|end,0,1,2\n|task,4,3\n|,|run,5\n".split('|') {
            files.push(filled(b"", filling, length));
            files.push(filled(&one().text(), filling, length));
        }
    }
    for length in [65_538, 131_072, 1_000_000] {
        files.push(filled(&one().text(), "\n", length));
        files.push(filled(b"task,4,", "3", length));
    }
    for step in [1_024, 4_096, 8_192, 16_384, 32_768] {
        files.push(ended_at(step, b""));
        files.push(ended_at(step, b"\n"));
        files.push(ended_at(step, b"run,5\n"));
    }
    files
}

/// A text and its filling, so many bytes long.
fn filled(text: &[u8], filling: &str, length: usize) -> Text {
    let bytes = text.iter().copied().chain(filling.bytes().cycle());
    bytes.take(length).collect()
}

/// 35,171 bytes with CR LF: the most lines, with fields as long as they can be.
pub fn largest_text(line_end: &str) -> Text {
    let mut draft = longest_end_lines(9_000);
    draft.tasks = vec![(WORD - 1, WORD - 1); 16];
    draft.speeds = vec![(WORD - 1, WORD - 1); 8];
    (draft.lines().join(line_end) + line_end).into_bytes()
}

/// As many end lines as there can be, after a table that is played up to the first of them.
fn largest_played() -> Text {
    longest_end_lines(1_000).text()
}

/// 1,000 end lines from a tick on, for tasks 10 to 16.
fn longest_end_lines(tick: Number) -> Draft {
    let tasks = vec![(LONGEST_PERIOD, 50_000_000); 16];
    let speeds = (TOP_SPEED - 7..=TOP_SPEED).map(|speed| (speed, MOST_VOLTS));
    let mut draft = Draft::of(tasks, speeds.collect(), 10_000);
    let end = |place: Number| (tick + place / 7, 10 + place % 7, WORD - 1);
    draft.ends.extend((0..1_000).map(end));
    draft
}

/// A run line that ends where a reading step may end, and more text after it.
fn ended_at(step: usize, more: &[u8]) -> Text {
    let mut draft = longest_end_lines(1_000);
    let lines = std::mem::take(&mut draft.ends);
    let room = step - draft.text().len();
    // An end line has 14 to 33 bytes here, by the digits of its cycles.
    draft.ends.extend(&lines[..room.div_ceil(33)]);
    let mut missing = room - 14 * draft.ends.len();
    for line in &mut draft.ends {
        let digits = missing.min(19);
        line.2 = Number::pow(10, digits as u32);
        missing -= digits;
    }
    [&draft.text(), more].concat()
}
