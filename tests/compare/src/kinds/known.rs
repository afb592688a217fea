//! Files whose whole answer document 01 tells: both programs are held to it, and not only to
//! each other.

use super::limits::largest_text;
use super::Text;

/// A run file, or a text that is none, and what the bench must print.
pub type Known = (Text, Text);

/// A file and its answer; the answer's lines are written here with LF.
fn known(text: &str, answer: &str) -> Known {
    (text.into(), answer.replace('\n', "\r\n").into())
}

/// Document 01's cases to be run that a run file can say.
pub fn to_be_run() -> Vec<Known> {
    let mut files = equal_periods();
    files.extend(finished_or_cut());
    files
}

/// Equal periods 4 and 4: task 1 goes first, whatever the reserves, and again after the next
/// release.
fn equal_periods() -> Vec<Known> {
    let runs = [
        (
            "task,4,4\ntask,4,4\nspeed,2,10\nrun,5\n",
            "0,2,2,0,0\n1,2,2,0,0\n2,2,0,2,0\n3,2,0,2,0\n4,2,2,0,0\ntotal,10,0,1000,0,2\n",
        ),
        (
            "task,4,7\ntask,4,1\nspeed,2,10\nrun,5\n",
            "0,2,2,0,0\n1,2,2,0,0\n2,2,2,0,0\n3,2,1,1,0\n4,2,2,0,0\ntotal,10,0,1000,0,2\n",
        ),
        (
            "task,4,1\ntask,4,7\nspeed,2,10\nrun,5\n",
            "0,2,1,1,0\n1,2,0,2,0\n2,2,0,2,0\n3,2,0,2,0\n4,2,1,1,0\ntotal,10,0,1000,0,3\n",
        ),
        (
            "task,4,4\ntask,4,4\nspeed,2,10\nend,0,1,1\nend,0,2,1\nrun,5\n",
            "0,2,1,1,0\n1,2,0,0,2\n2,2,0,0,2\n3,2,0,0,2\n4,2,2,0,0\ntotal,4,6,400,0,0\n",
        ),
    ];
    runs.map(|(text, answer)| known(text, answer)).to_vec()
}

/// An entry equal to the reserve, and 0 in the same tick: the same lines but for the count of cuts.
fn finished_or_cut() -> Vec<Known> {
    let runs = [
        // In one tick.
        (
            "task,4,3\nspeed,5,10\n",
            "end,0,1,3\n",
            "0,5,3,2\ntotal,3,2,300",
        ),
        // In the second tick, with what the first left of the reserve.
        (
            "task,2,3\nspeed,2,10\n",
            "end,1,1,3\n",
            "0,2,2,0\n1,2,1,1\ntotal,3,1,300",
        ),
        // The use stays the reserve, so the speed stays too.
        (
            "task,4,6\nspeed,1,10\nspeed,2,20\n",
            "end,2,1,6\n",
            "0,2,2,0\n1,2,2,0\n2,2,2,0\n3,2,0,2\ntotal,6,2,2400",
        ),
        // The rest of the tick goes to the next job.
        (
            "task,4,3\ntask,4,5\nspeed,2,10\n",
            "end,1,1,3\n",
            "0,2,2,0,0\n1,2,1,1,0\ntotal,4,0,400",
        ),
    ];
    let both = |(table, end, lines): (&str, &str, &str)| {
        let ticks = lines.lines().count() - 1;
        let file = |end, cut| {
            known(
                &format!("{table}{end}run,{ticks}\n"),
                &format!("{lines},0,{cut}\n"),
            )
        };
        [file(end, 0), file("", 1)]
    };
    runs.into_iter().flat_map(both).collect()
}

/// Two tasks and a speed that start refuses with 3, so that this answer shows that a file was read.
const TABLE: &str = "task,0,1\ntask,0,1\nspeed,1,1\n";

/// Texts by the number that the bench gives; # stands for the table and / for LF.
const TEXTS: [(u64, &str); 6] = [
    // Missing lines are left to start.
    (1, "run,0|run,0\r/|speed,1,1/run,10000"),
    (2, "task,0,1/run,0|task,0,1/end,0,1,1/run,1"),
    // Line ends, the run line's range, and 64 bits in each field that has no smaller range.
    (
        3,
        "#run,0|#run,0/|#run,0\r/|#run,10000|#speed,0,0/run,0|#end,0,1,1/run,1|#end,0,1,1\r/run,1|\
        #end,0,2,1/run,1|#end,0,1,1/end,0,2,1/run,1|#end,0,2,1/end,1,1,1/run,2|\
        #end,9999,2,1/run,10000|#end,0,1,18446744073709551615/run,1|\
        #speed,18446744073709551615,18446744073709551615/run,0|\
        task,18446744073709551615,18446744073709551615/#run,0",
    ),
    // The run line: its number, its end, and what stands behind it.
    (
        14,
        "|/|\r/|#|#run|#run,|#run,10001|#run,18446744073709551615|#run,18446744073709551616|#run,00|\
        #run,01|#run,+0|#run,-0|#run, 0|#run,0 |#run,0,|#run,0,0|#run,0\r|#run,0\r\r/|#run,0//|\
        #run,0/\r/|#run,0/\r|#run,0/ |#run,0/run,0|#run,0/task,0,1|#run,0/speed,1,1|#run,0/end,0,1,1",
    ),
    // End lines: an unknown task, no cycle, a tick that falls or is not the run's.
    (
        14,
        "#end,0,0,1/run,1|#end,0,3,1/run,1|#end,0,1,0/run,1|#end,0,1,1/run,0|#end,1,1,1/run,1|\
        #end,0,1,1/end,0,1,2/run,1|#end,0,2,1/end,0,1,1/run,1|#end,1,1,1/end,0,2,1/run,2|\
        #end,18446744073709551615,1,1/run,10000|#end,0,18446744073709551615,1/run,1|\
        #end,0,18446744073709551617,1/run,1|#end,18446744073709551616,1,1/run,1|\
        #end,0,1,18446744073709551616/run,1|#end,00,1,1/run,1|#end,0,01,1/run,1|#end,0,1,01/run,1|\
        end,0,1,1/run,1|speed,1,1/end,0,1,1/run,1",
    ),
    // Fields past 64 bits, leading zeros, NUL, CR alone, groups out of order.
    (
        14,
        "task,18446744073709551616,1/#run,0|task,1,18446744073709551616/#run,0|task,00,1/#run,0|\
        task,0,01/#run,0|#speed,18446744073709551616,1/run,0|#speed,1,18446744073709551616/run,0|\
        #speed,01,1/run,0|#speed,1,01/run,0|\0|#\0|\0#run,0|#\0run,0|#run\0,0|#run,\0|#run,\x000|\
        #run,0\0|#run,0/\0|task,\x000,1/#run,0|task,0\0,1/#run,0|task,0,1\0/#run,0|task,0,1\r#run,0|\
        task,0,1\r\r/#run,0|task,0,1/\r#run,0|\r/#run,0|#\r/run,0|#task,0,1/run,0|#run,0\r#|\
        #end,0,1,1/speed,1,1/run,1",
    ),
];

/// What is a run file and what is none, on either side of each rule.
pub fn run_files() -> Vec<Known> {
    let mut files = Vec::new();
    for (number, texts) in TEXTS {
        let texts = texts.replace('#', TABLE).replace('/', "\n");
        files.extend(texts.split('|').map(|text| told(text.into(), number)));
    }
    for line_end in ["\n", "\r\n"] {
        files.push(told(largest_text(line_end), 3));
    }
    files.extend(counts_of_lines());
    files.extend(behind_the_run_line());
    files
}

/// A file that gets a number before its first tick.
fn told(text: Text, number: u64) -> Known {
    (text, format!("refused,{number}\r\n").into())
}

/// As many lines of each group as there may be, and one more.
fn counts_of_lines() -> Vec<Known> {
    let file = |(tasks, speeds, ends, number): (usize, usize, usize, u64)| {
        let lines: String = (0..ends).map(|tick| format!("end,{tick},1,1\n")).collect();
        let (task, speed) = ("task,0,1\n".repeat(tasks), "speed,1,1\n".repeat(speeds));
        told(format!("{task}{speed}{lines}run,10000").into(), number)
    };
    let counts = [
        (16, 8, 1_000, 3),
        (17, 8, 1_000, 14),
        (16, 9, 1_000, 14),
        (16, 8, 1_001, 14),
    ];
    counts.map(file).to_vec()
}

/// Each byte behind the run line's digits: a digit and LF can stand there, nothing else. Behind its
/// LF nothing can, up to 65,536 bytes and one more.
fn behind_the_run_line() -> Vec<Known> {
    let good = format!("{TABLE}run,1");
    let ended = |byte: u8| {
        let read = byte.is_ascii_digit() || byte == b'\n';
        let text = [good.as_bytes(), &[byte]].concat();
        told(text, if read { 3 } else { 14 })
    };
    let mut files: Vec<Known> = (0..=255).map(ended).collect();
    for byte in *b"\n\r\0 0," {
        for length in [good.len() + 2, 65_535, 65_536, 65_537] {
            let mut text = format!("{good}\n").into_bytes();
            text.resize(length, byte);
            files.push(told(text, 14));
        }
    }
    files
}
