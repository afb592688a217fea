//! The tables, and the reports of long runs, made by playing them with the second program.

use linked::random::Random;
use second::{State, LONGEST_RUN};

/// What the jobs of a run do.
#[derive(Clone, Copy, PartialEq, Eq)]
pub enum Shape {
    /// The running job finishes early once in four ticks.
    Random,
    /// Each job finishes after one cycle, so that most ticks are idle.
    Idle,
    /// No job finishes: each is cut.
    Cut,
    /// As random, with a task of period 1 and others of short ones: releases at every tick.
    Releases,
    /// Every task has period 1 and finishes after one cycle: each tick settles a finish of every task.
    Finishes,
}

impl Shape {
    pub const WORDS: [(&'static str, Shape); 5] = [
        ("random", Shape::Random),
        ("idle", Shape::Idle),
        ("cut", Shape::Cut),
        ("releases", Shape::Releases),
        ("finishes", Shape::Finishes),
    ];
}

/// What start takes.
pub struct Table {
    pub periods: Vec<u64>,
    pub reserves: Vec<u64>,
    pub speeds: Vec<u64>,
    pub volts: Vec<u64>,
}

const PERIODS: [u64; 16] = [
    8, 10, 14, 20, 25, 40, 50, 56, 70, 100, 125, 140, 200, 250, 280, 350,
];
const SHORT_PERIODS: [u64; 16] = [1, 2, 3, 4, 5, 6, 8, 10, 12, 15, 20, 24, 30, 40, 60, 120];
const PERIODS_OF_1: [u64; 16] = [1; 16];
const SPEEDS: [u64; 8] = [30, 40, 50, 60, 70, 80, 90, 100];
const VOLTS: [u64; 8] = [15, 20, 25, 30, 35, 40, 45, 50];

impl Table {
    /// So many tasks with equal shares of nearly the whole top speed; eight speeds for 16 tasks, four for fewer.
    pub fn new(tasks: usize, shape: Shape) -> Table {
        let periods = match shape {
            Shape::Releases => &SHORT_PERIODS[..tasks],
            Shape::Finishes => &PERIODS_OF_1[..tasks],
            _ => &PERIODS[..tasks],
        };
        let every = if tasks == 16 { 1 } else { 2 };
        let rungs = |list: &[u64; 8]| {
            list.iter()
                .skip(every - 1)
                .step_by(every)
                .copied()
                .collect()
        };
        let share = |period: &u64| (period * SPEEDS[7] / tasks as u64).max(1);
        Table {
            periods: periods.to_vec(),
            reserves: periods.iter().map(share).collect(),
            speeds: rungs(&SPEEDS),
            volts: rungs(&VOLTS),
        }
    }
}

/// A run: reports one after the other, each as long as the task count.
pub struct Run {
    pub table: Table,
    /// The ticks before the run, so that a multiple of H brings its end to the last tick allowed.
    pub before: Vec<u64>,
    pub reports: Vec<u64>,
    /// That multiple of H.
    pub moved: u64,
}

impl Run {
    pub fn new(tasks: usize, shape: Shape, ticks: u64) -> Run {
        let table = Table::new(tasks, shape);
        let (number, mut state) =
            second::start(&table.periods, &table.reserves, &table.speeds, &table.volts);
        assert_eq!(number, 0, "the table is admitted");
        let mut random = Random::of(2001, 0, 0);
        let before = (LONGEST_RUN - ticks) % state.great_period;
        Run {
            before: reports(&mut state, shape, before, &mut random),
            reports: reports(&mut state, shape, ticks, &mut random),
            moved: LONGEST_RUN - ticks - before,
            table,
        }
    }
}

/// Plays a state on, and gives the reports of its ticks.
fn reports(state: &mut State, shape: Shape, ticks: u64, random: &mut Random) -> Vec<u64> {
    let tasks = state.task_count as usize;
    let mut reports = vec![0; tasks * ticks as usize];
    let mut grants = vec![0; tasks];
    for report in reports.chunks_mut(tasks) {
        fill(report, state, shape, random);
        let (number, next) = second::tick(state, report, &mut grants);
        assert_eq!(number, 0, "the report is good");
        *state = next;
    }
    reports
}

/// Makes one report.
fn fill(report: &mut [u64], state: &State, shape: Shape, random: &mut Random) {
    match shape {
        Shape::Cut => {}
        // One cycle each: every speed reaches all.
        Shape::Idle | Shape::Finishes => {
            for (task, entry) in report.iter_mut().enumerate() {
                *entry = u64::from(!state.over[task]);
            }
        }
        Shape::Random | Shape::Releases => {
            let (_, chosen, speed) = second::now(state);
            if let (Some((number, _)), true) = (chosen, random.once_in(4)) {
                let task = number as usize - 1;
                let run = state.run[task];
                report[task] = run + random.between(1, speed.min(state.reserves[task] - run));
            }
        }
    }
}
