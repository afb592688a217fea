//! The example of Pillai and Shin's Tables 2 and 3, played with the linked governor and printed as the bench prints it.
use piszczalin::{start, Cycles, Entry, Refusal, Speed, State, Ticks, Volts};
use std::process::ExitCode;

const PERIODS: [Ticks; 3] = [Ticks(8), Ticks(10), Ticks(14)];
const RESERVES: [Cycles; 3] = [Cycles(300), Cycles(300), Cycles(100)];
const SPEEDS: [Speed; 3] = [Speed(50), Speed(75), Speed(100)];
const VOLTS: [Volts; 3] = [Volts(30), Volts(40), Volts(50)];
const TICKS: u64 = 16;

// What a head would report: in this tick the job of this task, from 1, finished, after so many cycles in all.
const FINISHES: [(u64, usize, Cycles); 6] = [
    (2, 1, Cycles(200)),
    (3, 2, Cycles(100)),
    (5, 3, Cycles(100)),
    (9, 1, Cycles(100)),
    (11, 2, Cycles(100)),
    (15, 3, Cycles(100)),
];

// The report of a tick.
fn report(tick: u64) -> [Entry; 3] {
    let mut report = [Entry::NO_FINISH; 3];
    for (_, task, cycles) in FINISHES.into_iter().filter(|finish| finish.0 == tick) {
        report[task - 1] = Entry::finished_after(cycles).expect("a job that finishes has run");
    }
    report
}

// Plays one tick and prints its line: tick, speed, grants, idle.
fn play(tick: u64, state: &State) -> Result<State, Refusal> {
    let speed = state.now()?.speed;
    // a head sets its clock to this speed here, and runs the task that now tells
    let mut grants = [Cycles(0); 3];
    let next = state.tick(&report(tick), &mut grants)?;
    let idle = next.tally().idle.0 - state.tally().idle.0;
    let [first, second, third] = grants;
    print!(
        "{tick},{},{},{},{},{idle}\r\n",
        speed.0, first.0, second.0, third.0
    );
    Ok(next)
}

// Plays the run, and prints its last line: total, cycles granted, idle, energy, late, cut.
fn run() -> Result<(), Refusal> {
    let mut state = start(&PERIODS, &RESERVES, &SPEEDS, &VOLTS)?;
    for tick in 0..TICKS {
        state = play(tick, &state)?;
    }
    let energy = state.energy()?;
    let tally = state.tally();
    let granted: u64 = tally.counts.iter().map(|count| count.0).sum();
    print!(
        "total,{granted},{},{energy},{},{}\r\n",
        tally.idle.0, tally.late, tally.cut
    );
    Ok(())
}

fn main() -> ExitCode {
    match run() {
        Ok(()) => ExitCode::SUCCESS,
        Err(refusal) => {
            print!("refused,{}\r\n", refusal.number());
            ExitCode::FAILURE
        }
    }
}
