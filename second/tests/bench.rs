//! The bench's text against document 01, "Run files".

use second::{bench, play, Ending, Played, RunFile, Watch};

const PRINTED_INPUT: &str = "\
task,8,300
task,10,300
task,14,100
speed,50,30
speed,75,40
speed,100,50
end,2,1,200
end,3,2,100
end,5,3,100
end,9,1,100
end,11,2,100
end,15,3,100
run,16
";

const PRINTED_OUTPUT: &str = "\
0,75,75,0,0,0
1,75,75,0,0,0
2,75,50,25,0,0
3,75,0,75,0,0
4,50,0,0,50,0
5,50,0,0,50,0
6,50,0,0,0,50
7,50,0,0,0,50
8,75,75,0,0,0
9,75,25,0,0,50
10,50,0,50,0,0
11,50,0,50,0,0
12,50,0,0,0,50
13,50,0,0,0,50
14,50,0,0,50,0
15,50,0,0,50,0
total,700,250,910000,0,0
";

/// Compares; the expected lines are written here with LF.
fn prints(input: impl AsRef<[u8]>, expected: &str) {
    let text = String::from_utf8(bench(input.as_ref())).unwrap();
    assert_eq!(
        text,
        expected.replace('\n', "\r\n"),
        "{:?}",
        String::from_utf8_lossy(input.as_ref())
    );
}

fn no_run_file(input: impl AsRef<[u8]>) {
    prints(input, "refused,14\n");
}

#[test]
fn the_printed_run() {
    prints(PRINTED_INPUT, PRINTED_OUTPUT);
    prints(PRINTED_INPUT.replace('\n', "\r\n"), PRINTED_OUTPUT);
    prints(PRINTED_INPUT.trim_end(), PRINTED_OUTPUT);
    prints(PRINTED_INPUT.replacen('\n', "\r\n", 5), PRINTED_OUTPUT);
}

#[test]
fn at_top_volts_throughout() {
    let input = PRINTED_INPUT
        .replace(",30\n", ",50\n")
        .replace(",40\n", ",50\n");
    let output = PRINTED_OUTPUT.replace("910000", "1750000");
    prints(input, &output);
}

#[test]
fn the_slips_as_runs() {
    prints(
        "task,4,4\ntask,4,4\nspeed,1,10\nspeed,2,20\nrun,4",
        "0,2,2,0,0\n1,2,2,0,0\n2,2,0,2,0\n3,2,0,2,0\ntotal,8,0,3200,0,2\n",
    );
    prints(
        "task,3,4\ntask,3,4\ntask,3,4\nspeed,3,1\nspeed,4,1\nrun,3",
        "0,4,4,0,0,0\n1,4,0,4,0,0\n2,4,0,0,4,0\ntotal,12,0,12,0,3\n",
    );
}

#[test]
fn numbers_of_start_in_the_bench() {
    prints("run,1", "refused,1\n");
    prints("speed,1,1\nrun,1", "refused,1\n");
    prints("task,0,0\nrun,1", "refused,2\n");
    prints("task,0,0\nspeed,0,0\nrun,1", "refused,3\n");
    prints("task,1,0\nspeed,0,0\nrun,1", "refused,4\n");
    prints(
        "task,1,18446744073709551615\nspeed,1,1\nrun,0",
        "refused,4\n",
    );
    prints("task,1,1\nspeed,0,0\nrun,1", "refused,5\n");
    prints("task,1,1\nspeed,2,1\nspeed,2,1\nrun,1", "refused,5\n");
    prints("task,1,1\nspeed,1,0\nrun,1", "refused,6\n");
    prints("task,1000,1\ntask,1001,1\nspeed,1,1\nrun,1", "refused,7\n");
    prints("task,1,51\nspeed,50,1\nrun,1", "refused,8\n");
    // The text is read whole first.
    no_run_file("task,1,51\nspeed,50,1\nrun,1\n\n");
    no_run_file("task,0,0\nspeed,0,0\nend,0,1,0\nrun,1");
}

#[test]
fn a_refused_tick() {
    let table = "task,4,6\ntask,8,4\nspeed,3,10\n";
    let after = |ends: &str, expected: &str| prints(format!("{table}{ends}"), expected);
    after("end,0,1,4\nrun,2", "refused,13\n");
    after("end,0,1,18446744073709551615\nrun,2", "refused,13\n");
    after("end,0,2,1\nrun,2", "refused,13\n");
    after("end,1,1,3\nrun,2", "0,3,3,0,0\nrefused,13\n");
    after("end,1,1,7\nrun,2", "0,3,3,0,0\nrefused,13\n");
    after(
        "end,1,1,4\nend,1,2,2\nend,2,1,4\nrun,3",
        "0,3,3,0,0\n1,3,1,2,0\nrefused,13\n",
    );
    after(
        "end,1,1,4\nend,1,2,2\nrun,3",
        "0,3,3,0,0\n1,3,1,2,0\n2,3,0,0,3\ntotal,6,3,600,0,0\n",
    );
}

#[test]
fn run_lines() {
    let table = "task,1,1\nspeed,1,1\n";
    prints(format!("{table}run,0"), "total,0,0,0,0,0\n");
    prints(format!("{table}run,0\r\n"), "total,0,0,0,0,0\n");
    prints(format!("{table}run,1"), "0,1,1,0\ntotal,1,0,1,0,1\n");
    for run in [
        "run",
        "run,",
        "run,10001",
        "run,01",
        "run,00",
        "run,-1",
        "run,+1",
        "run, 1",
        "run,1 ",
        "run,1,",
        "run,1,1",
        "run,1\r",
        "run,1\r\r\n",
        "run,1\n\n",
        "run,1\n\r\n",
        "run,1\nrun,1",
        "run,1\ntask,1,1",
        "run,1\0",
        "run,1x",
        "run,x",
        "run,18446744073709551616",
        "run,18446744073709551615",
        "Run,1",
        " run,1",
        "\"run\",1",
        "run,\"1\"",
        "run;1",
        "",
    ] {
        no_run_file(format!("{table}{run}"));
    }
    let text = String::from_utf8(bench(format!("{table}run,10000").as_bytes())).unwrap();
    assert_eq!(text.lines().count(), 10_001);
    assert!(text.ends_with("\r\n9999,1,1,0\r\ntotal,10000,0,10000,0,10000\r\n"));
}

#[test]
fn task_and_speed_lines() {
    for line in [
        "task,1",
        "task,1,",
        "task,,1",
        "task,1,1,",
        "task,1,1,1",
        "task,01,1",
        "task,1,00",
        "task,1,18446744073709551616",
        "task,1,99999999999999999999999",
        "task",
        "task,",
        "task 1,1",
        "TASK,1,1",
        "\u{feff}task,1,1",
        "speed,1",
        "speed,1,1,1",
        "",
        "# note",
        "period,reserve",
        "tasks,1,1",
        "task,1,1\r\r",
        "task,1,\r",
    ] {
        no_run_file(format!("{line}\ntask,1,1\nspeed,1,1\nrun,1"));
        no_run_file(format!("task,1,1\n{line}\nspeed,1,1\nrun,1"));
        no_run_file(format!("task,1,1\nspeed,1,1\n{line}\nrun,1"));
    }
    // The order of groups.
    no_run_file("speed,1,1\ntask,1,1\nrun,1");
    no_run_file("task,1,1\nspeed,1,1\ntask,1,1\nrun,1");
    no_run_file("task,1,1\nend,0,1,1\nspeed,1,1\nrun,1");
    no_run_file("run,1\ntask,1,1\nspeed,1,1\n");
    // How many lines.
    let lines = |tasks: usize, speeds: usize| {
        let speeds: String = (0..speeds)
            .map(|i| format!("speed,{},1\n", 16 + i))
            .collect();
        format!("{}{speeds}run,0", "task,1,1\n".repeat(tasks))
    };
    prints(lines(16, 8), "total,0,0,0,0,0\n");
    no_run_file(lines(17, 8));
    no_run_file(lines(16, 9));
    prints(lines(0, 8), "refused,1\n");
    prints(lines(1, 0), "refused,2\n");
}

#[test]
fn end_lines() {
    let with = |ends: &str, run: u64| format!("task,2,2\ntask,2,2\nspeed,2,1\n{ends}run,{run}");
    prints(
        with("end,0,1,1\nend,0,2,1\n", 1),
        "0,2,1,1,0\ntotal,2,0,2,0,0\n",
    );
    no_run_file(with("end,0,2,1\nend,0,1,1\n", 1));
    no_run_file(with("end,0,1,1\nend,0,1,1\n", 1));
    no_run_file(with("end,1,1,1\nend,0,2,1\n", 2));
    no_run_file(with("end,1,1,1\n", 1));
    no_run_file(with("end,0,1,1\n", 0));
    no_run_file(with("end,18446744073709551615,1,1\n", 10_000));
    no_run_file(with("end,0,0,1\n", 1));
    no_run_file(with("end,0,3,1\n", 1));
    no_run_file(with("end,0,18446744073709551615,1\n", 1));
    no_run_file(with("end,0,1,0\n", 1));
    no_run_file(with("end,0,1\n", 1));
    no_run_file(with("end,0,1,1,1\n", 1));
    no_run_file(with("end,00,1,1\n", 1));
    no_run_file("end,0,1,1\nrun,1");
    no_run_file("speed,1,1\nend,0,1,1\nrun,1");
    // A table that start refuses: the end lines are read all the same.
    prints("task,0,0\nend,0,1,1\nrun,1", "refused,2\n");
    no_run_file("task,0,0\nend,0,2,1\nrun,1");
    // How many.
    let ends = |most: usize| {
        let ends: String = (0..most).map(|tick| format!("end,{tick},1,1\n")).collect();
        format!("task,1,1\nspeed,1,1\n{ends}run,10000")
    };
    assert!(bench(ends(1_000).as_bytes()).ends_with(b"\r\ntotal,10000,0,10000,0,9000\r\n"));
    no_run_file(ends(1_001));
}

#[test]
fn no_text_and_long_text() {
    no_run_file("");
    no_run_file("\n");
    no_run_file("\r\n");
    no_run_file([0xff; 100]);
    no_run_file("task,1,1\n".repeat(7_282));
    no_run_file([b'0'; 65_536]);
    no_run_file([b'0'; 65_537]);
    no_run_file(format!("run,{}", "9".repeat(70_000)));
}

/// The printed run with a byte changed, put in or taken out: always an answer that
/// ends in a total or a refusal.
#[test]
fn damaged_texts_are_answered() {
    let good = PRINTED_INPUT.as_bytes();
    for place in 0..good.len() {
        for byte in [0, b'\n', b'\r', b' ', b',', b'0', b'9', b'e', 0xff] {
            let mut changed = good.to_vec();
            changed[place] = byte;
            let mut longer = good.to_vec();
            longer.insert(place, byte);
            let mut shorter = good.to_vec();
            shorter.remove(place);
            for text in [changed, longer, shorter] {
                let answer = bench(&text);
                let last = answer[..answer.len() - 2].rsplit(|&b| b == b'\n').next();
                let last = last.unwrap();
                assert!(answer.ends_with(b"\r\n"));
                assert!(last.starts_with(b"total,") || last.starts_with(b"refused,"));
            }
        }
    }
}

/// Fields of one to seven digits, and lines longer than the likely ones.
#[test]
fn wide_lines() {
    let tasks: String = (0..16)
        .map(|i| format!("task,1,{}\n", 62_485 + i))
        .collect();
    let input = format!("{tasks}speed,1000000,100\nrun,300");
    let grants: String = (0..16).map(|i| format!("{},", 62_485 + i)).collect();
    let lines: String = (0..300)
        .map(|t| format!("{t},1000000,{grants}120\n"))
        .collect();
    prints(
        input,
        &format!("{lines}total,299964000,36000,2999640000000,0,4800\n"),
    );
    prints(
        "task,1,1000000\nspeed,1000000,1\nrun,1",
        "0,1000000,1000000,0\ntotal,1000000,0,1000000,0,1\n",
    );
}

/// A run played without the text.
#[test]
fn a_run_can_be_watched() {
    struct Sums(u64, u64);
    impl Watch for Sums {
        fn tick(&mut self, t: u64, played: &Played) {
            assert_eq!(t, self.0);
            self.0 += 1;
            let granted: u64 = played.grants.iter().sum();
            assert_eq!(granted + played.idle, played.speed);
            self.1 += granted;
        }
    }
    let file = RunFile::read(PRINTED_INPUT.as_bytes()).unwrap();
    let mut sums = Sums(0, 0);
    let Ending::Done(state) = play(&file, &mut sums) else {
        panic!("refused")
    };
    assert_eq!((sums.0, sums.1, state.t), (16, 700, 16));
    assert_eq!(second::energy(&state), (0, 910_000));
}
