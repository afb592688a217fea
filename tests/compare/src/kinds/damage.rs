//! Texts that are no run file, and those beside them that are.

use super::Text;
use crate::draft::Draft;
use crate::model::play;
use crate::random::Random;
use crate::tables::small_table;

/// A good file with lines of every group and finishes inside.
const GOOD: &str = "\
task,3,4
task,6,5
speed,2,10
speed,4,20
end,0,1,3
end,2,2,5
run,7
";

/// Bytes that a damaged file often holds.
const BYTES: [u8; 26] = *b"0123456789/:,,\n\r\0 \"+-.tE\xff\xb2";

/// Lines end in LF or CR LF, the last may lack it.
pub fn line_ends(random: &mut Random) -> Vec<Text> {
    let mut files = all_alike();
    let mut mixed = |_| {
        let draft = random_good(random);
        let mut text = String::new();
        for line in draft.lines() {
            text += &line;
            text += random.pick(&["\n", "\r\n"]);
        }
        let kept = text.len() - random.pick(&[0, 0, 1, 2]);
        text.as_bytes()[..kept].to_vec()
    };
    files.extend((0..80).map(&mut mixed));
    files
}

/// The good file with the same end after each line, right or wrong, and another after the last.
fn all_alike() -> Vec<Text> {
    let inner = "\n|\r\n|\r|\n\r|\r\r\n|\n\n|\r\n\r\n||,\n| \n|\0\n|\x0b|\x0c|\u{85}|\u{2028}";
    let last = "\n|\r\n||\r|\n\r|\n\n|\r\n\n|\n\r\n|\r\r\n| |\0|\x1a|,";
    let mut files = Vec::new();
    for inner in inner.split('|') {
        for last in last.split('|') {
            files.push((GOOD.trim_end().replace('\n', inner) + last).into_bytes());
        }
    }
    files
}

/// A small table with its end lines.
fn random_good(random: &mut Random) -> Draft {
    let mut draft = small_table(random);
    draft.ticks = random.between(1, 8);
    play(&mut draft, &mut |turn| {
        let entry = random.between(turn.run + 1, turn.most());
        random.pick(&[0, entry])
    });
    draft
}

/// Each byte of a good file replaced, removed, doubled, and one put before it.
pub fn each_byte(random: &mut Random) -> Vec<Text> {
    let good = GOOD.as_bytes();
    let mut files = Vec::new();
    for place in 0..good.len() {
        for way in 0..4 {
            let mut text = good.to_vec();
            damage(random, &mut text, place, way);
            files.push(text);
        }
    }
    files
}

/// One to three bytes of a random good file damaged.
pub fn at_random(random: &mut Random) -> Vec<Text> {
    let mut file = |_| {
        let mut text = random_good(random).text();
        for _ in 0..random.between(1, 3) {
            let (place, way) = (random.place(text.len()), random.place(4));
            damage(random, &mut text, place, way);
        }
        text
    };
    (0..400).map(&mut file).collect()
}

/// Replaces, removes or doubles a byte, or puts one before it.
fn damage(random: &mut Random, text: &mut Text, place: usize, way: usize) {
    let byte = if random.once_in(4) {
        random.byte()
    } else {
        random.pick(&BYTES)
    };
    match way {
        0 => text[place] = byte,
        1 => _ = text.remove(place),
        2 => text.insert(place, text[place]),
        _ => text.insert(place, byte),
    }
}

/// Each field of the good file in every wrong form: leading zero, sign, space, quotes, empty, extra.
pub fn fields(_: &mut Random) -> Vec<Text> {
    let mut files = Vec::new();
    for (start, length) in places_of_fields() {
        let field = &GOOD[start..start + length];
        for form in wrong_forms(field) {
            let text = [&GOOD[..start], &form, &GOOD[start + length..]].concat();
            files.push(text.into_bytes());
        }
    }
    files
}

/// Where the fields of digits stand.
fn places_of_fields() -> Vec<(usize, usize)> {
    let mut places = Vec::new();
    let mut start = 0;
    for field in GOOD.split_inclusive([',', '\n']) {
        if field.as_bytes()[0].is_ascii_digit() {
            places.push((start, field.len() - 1));
        }
        start += field.len();
    }
    places
}

/// A field that is no such number, or one written as it may be; # stands for what it was.
fn wrong_forms(field: &str) -> Vec<String> {
    let forms = "0#|00#|+#|-#| #|# |\t#|\"#\"|'#'|#,|,#|#,0|0,#|#.0|#e0|0x#|#u|#:|/#|#\0|#\r|\
        |0|00|-0|+0|x|/|:|\u{663}|\u{ff13}|1_000|1 0|\0|\r|\n";
    let mut forms: Vec<String> = forms
        .split('|')
        .map(|form| form.replace('#', field))
        .collect();
    for digit in ["0", "1", "9"] {
        forms.extend([20, 40, 1_000].map(|count| digit.repeat(count)));
    }
    forms
}

/// Whole lines: header, wrong case, wrong order of groups, repeated run line, text after it.
pub fn lines(_: &mut Random) -> Vec<Text> {
    let strange =
        "|\r| |\t|\0|kind,first,second|period,reserve|Task,3,4|TASK,3,4|tasks,3,4|tas,3,4|\
        task;3;4|task 3 4|task|task,|task,,|task,3|task,3,|task,3,4,|task,3,4,5| task,3,4|\
        \"task\",3,4|\u{feff}task,3,4|speed|speed,|speed,5|speed,5,30,1|Speed,5,30|end|end,|\
        end,3|end,3,1|end,3,1,2,|end,3,1,2,1|End,3,1,2|run|run,|run,7|run,7,|run,7,7|Run,7|\
        runs,7|run,,7|run,7 |# note|stop,1|,|,,|3,4|\u{ff}|task,3,4\rtask,6,5";
    let good: Vec<&str> = GOOD.lines().collect();
    let mut files = orders_of_groups();
    for line in strange.split('|') {
        for place in [0, 2, 4, good.len() - 1, good.len()] {
            let mut changed = good.clone();
            changed.insert(place, line);
            files.push((changed.join("\n") + "\n").into_bytes());
        }
    }
    files.extend(few_lines());
    files
}

/// The groups of the good file in every order, one of them doubled, or left out.
fn orders_of_groups() -> Vec<Text> {
    let lines: Vec<&str> = GOOD.split_inclusive('\n').collect();
    let groups = [
        lines[..2].concat(),
        lines[2..4].concat(),
        lines[4..6].concat(),
        lines[6..].concat(),
    ];
    let mut files = Vec::new();
    for code in 0..256 {
        let order = [code / 64, code / 16 % 4, code / 4 % 4, code % 4];
        files.push(order.map(|group| &groups[group][..]).concat().into_bytes());
    }
    for left_out in 0..16 {
        let kept = (0..4).filter(|group| left_out >> group & 1 == 0);
        let text: String = kept.map(|group| &groups[group][..]).collect();
        files.push(text.into_bytes());
    }
    files
}

/// Empty input, only line ends, only one line or few; / stands for LF.
fn few_lines() -> Vec<Text> {
    let texts = "|/|\r|\r/|//|\0| |,|0|run,0|run,0/|run,1|run,5\r/|run,5\r|run,10000|run,10001|\
        task,1,1|task,1,1/|task,1,1/run,1|speed,1,1/|speed,1,1/run,1|end,0,1,1/run,1|\
        task,1,1/speed,1,1|task,1,1/speed,1,1/|task,1,1/speed,1,1/run,0|\
        task,1,1/speed,1,1/run,1|task,1,1/speed,1,1/end,0,1,1|\
        task,1,1/speed,1,1/end,0,1,1/run,1|task,1,1/end,0,1,1/run,1|\
        speed,1,1/end,0,1,1/run,1|speed,1,1/end,0,0,1/run,1|task,0,0/run,1|speed,0,0/run,0|\
        task,1,1/speed,1,1/end,0,1,1/run,0";
    texts
        .split('|')
        .map(|text| text.replace('/', "\n").into_bytes())
        .collect()
}

/// End lines that do not rise, name no task, no tick of the run, or no cycle.
pub fn end_lines(_: &mut Random) -> Vec<Text> {
    let good: Vec<&str> = GOOD.split_inclusive('\n').collect();
    let (before, after) = (good[..4].concat(), good[6..].concat());
    let ends = "0,1,3|0,1,4|0,2,1|2,1,1|2,2,5|2,3,1|3,1,1|6,1,1|6,2,1|7,1,1|8,1,1|0,0,1|0,1,0";
    let mut files = Vec::new();
    for first in ends.split('|') {
        files.push(format!("{before}end,{first}\n{after}").into_bytes());
        for second in ends.split('|') {
            files.push(format!("{before}end,{first}\nend,{second}\n{after}").into_bytes());
        }
    }
    files
}

/// A good file that stops after each of its bytes, with LF and with CR LF.
pub fn truncated(_: &mut Random) -> Vec<Text> {
    let mut files = Vec::new();
    for text in [GOOD.to_string(), GOOD.replace('\n', "\r\n")] {
        files.extend((0..text.len()).map(|length| text.as_bytes()[..length].to_vec()));
    }
    files
}

/// Lines of each group drawn at random, mostly in their order, with small numbers.
pub fn random_lines(random: &mut Random) -> Vec<Text> {
    let mut file = |_| {
        let mut words = vec!["run"];
        for _ in 0..random.between(1, 8) {
            words.push(random.pick(&["task", "task", "speed", "speed", "end"]));
        }
        let groups = ["task", "speed", "end", "run"];
        words.sort_by_key(|word| groups.iter().position(|group| group == word));
        if random.once_in(6) {
            random.shuffle(&mut words);
        }
        let lines = words.iter().map(|word| random_line(random, word));
        lines.collect::<String>().into_bytes()
    };
    (0..200).map(&mut file).collect()
}

/// A word and its fields, now and then one too few or too many.
fn random_line(random: &mut Random, word: &str) -> String {
    let mut fields = match word {
        "run" => 1,
        "end" => 3,
        _ => 2,
    };
    if random.once_in(30) {
        fields = random.between(0, 4);
    }
    let digits = (0..fields).map(|_| format!(",{}", random.between(0, 9)));
    format!("{word}{}\n", digits.collect::<String>())
}

/// Random bytes, of any value or of those that run files are made of.
pub fn random_bytes(random: &mut Random) -> Vec<Text> {
    let pieces = "task,|speed,|end,|run,|0|1|2|5|9|,|\n|\r\n|\n|12|\r";
    let pieces: Vec<&str> = pieces.split('|').collect();
    let mut file = |place: usize| {
        let length = random.between(0, 100);
        if place < 60 {
            return (0..length).map(|_| random.byte()).collect();
        }
        let text: String = (0..length / 3).map(|_| random.pick(&pieces)).collect();
        text.into_bytes()
    };
    (0..120).map(&mut file).collect()
}
