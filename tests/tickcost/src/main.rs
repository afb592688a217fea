//! What a tick costs: plays prepared reports with one governor, or checks that all agree, or times all.

mod check;
mod governors;
mod shapes;

use governors::{Governor, NAMES};
use shapes::{Run, Shape};
use std::process::ExitCode;

const USAGE: &str = "\
tickcost GOVERNOR TASKS SHAPE near-start|near-end TICKS [--time]
  GOVERNOR  library, second, bare-O2, bare-O3, or all
  TASKS     1 to 16
  SHAPE     random, idle, cut, releases or finishes
One governor plays the run once. With all, that they agree is checked, refused ticks between.
With --time, the best nanoseconds of processor time per tick of several repetitions are printed.";

/// How often a run is timed.
const REPETITIONS: usize = 5;

/// What the command line says.
struct Arguments {
    names: Vec<&'static str>,
    tasks: usize,
    shape: Shape,
    near_end: bool,
    ticks: u64,
    time: bool,
}

fn main() -> ExitCode {
    let words: Vec<String> = std::env::args().skip(1).collect();
    let words: Vec<&str> = words.iter().map(String::as_str).collect();
    match read(&words) {
        None => {
            eprintln!("{USAGE}");
            ExitCode::FAILURE
        }
        Some(arguments) => {
            measure(&arguments);
            ExitCode::SUCCESS
        }
    }
}

fn read(words: &[&str]) -> Option<Arguments> {
    let (&[name, tasks, shape, place, ticks], time) = match words {
        [words @ .., "--time"] => (words.try_into().ok()?, true),
        words => (words.try_into().ok()?, false),
    };
    let chosen = |known: &&str| name == "all" || name == *known;
    let names: Vec<&str> = NAMES.into_iter().filter(chosen).collect();
    let shape = Shape::WORDS.into_iter().find(|(word, _)| *word == shape)?.1;
    let near_end = match place {
        "near-start" => false,
        "near-end" => true,
        _ => return None,
    };
    let tasks = tasks
        .parse()
        .ok()
        .filter(|tasks| (1..=16).contains(tasks))?;
    let ticks = ticks
        .parse()
        .ok()
        .filter(|ticks| (1..=10_000_000).contains(ticks))?;
    (!names.is_empty()).then_some(Arguments {
        names,
        tasks,
        shape,
        near_end,
        ticks,
        time,
    })
}

/// Prepares the run and does what is asked with it.
fn measure(arguments: &Arguments) {
    let run = Run::new(arguments.tasks, arguments.shape, arguments.ticks);
    let prepared = |name: &&str| prepared(name, &run, arguments.near_end);
    let mut governors: Vec<Box<dyn Governor>> = arguments.names.iter().map(prepared).collect();
    if arguments.time {
        time(&run, &governors);
    } else if let [governor] = &governors[..] {
        let mut grants = vec![0; arguments.tasks];
        println!("{:?}", governor.play(&run.reports, &mut grants));
    } else {
        let refused = check::check(&run, &mut governors);
        println!(
            "{} ticks and {refused} refused ones between: all agree",
            arguments.ticks
        );
    }
}

/// A governor at the first tick of the run.
fn prepared(name: &str, run: &Run, near_end: bool) -> Box<dyn Governor> {
    let mut governor = governors::start(name, &run.table).expect("the name is known");
    let mut grants = vec![0; run.table.periods.len()];
    for report in run.before.chunks_exact(grants.len()) {
        assert_eq!(governor.tick(report, &mut grants), 0);
    }
    if near_end {
        governor.move_on(run.moved);
    }
    governor
}

extern "C" {
    fn clock_gettime(clock: i32, time: *mut [i64; 2]) -> i32;
}

/// CLOCK_THREAD_CPUTIME_ID of Linux.
const THREAD_TIME: i32 = 3;

/// The processor time of this thread so far, in nanoseconds; what other programs take of the machine is not in it.
fn processor_time() -> f64 {
    let mut time = [0; 2];
    // SAFETY: on x86-64 Linux the call writes two numbers of 64 bits, seconds and nanoseconds.
    let status = unsafe { clock_gettime(THREAD_TIME, &mut time) };
    assert_eq!(status, 0, "the clock answers");
    time[0] as f64 * 1e9 + time[1] as f64
}

/// Prints the best nanoseconds per tick of each governor. They take turns, so that a slow spell hits all.
fn time(run: &Run, governors: &[Box<dyn Governor>]) {
    let mut grants = vec![0; run.table.periods.len()];
    let ticks = run.reports.len() / grants.len();
    let mut best = vec![f64::INFINITY; governors.len()];
    for _ in 0..REPETITIONS {
        for (governor, best) in governors.iter().zip(&mut best) {
            let begun = processor_time();
            std::hint::black_box(governor.play(&run.reports, &mut grants));
            *best = best.min((processor_time() - begun) / ticks as f64);
        }
    }
    for (governor, best) in governors.iter().zip(best) {
        println!("{} {best:.1}", governor.name());
    }
}
