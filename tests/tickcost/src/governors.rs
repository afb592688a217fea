//! The governors that are measured, each with one loop that only plays prepared reports.

use crate::shapes::Table;
use linked::linked as library;
use piszczalin::raw;

/// What every governor's state tells.
#[derive(Debug, PartialEq, Eq)]
pub struct Seen {
    pub done: u64,
    pub run: Vec<u64>,
    pub over: Vec<bool>,
    pub counts: Vec<u64>,
    pub idle: u64,
    pub late: u64,
    pub cut: u64,
}

/// A state of a governor.
pub trait Governor {
    fn name(&self) -> &'static str;
    /// Moves the clock on by a multiple of H.
    fn move_on(&mut self, ticks: u64);
    /// One tick; its number.
    fn tick(&mut self, report: &[u64], grants: &mut [u64]) -> u64;
    fn copy(&self) -> Box<dyn Governor>;
    /// Plays good reports from here; what is seen at their end. The state stays as it is.
    fn play(&self, reports: &[u64], grants: &mut [u64]) -> Seen;
    fn seen(&self) -> Seen;
}

/// The governors by their names.
pub const NAMES: [&str; 4] = ["library", "second", "bare-O2", "bare-O3"];

/// A fresh state of one.
pub fn start(name: &str, table: &Table) -> Option<Box<dyn Governor>> {
    match name {
        "library" => Some(Box::new(Library::start(table))),
        "second" => Some(Box::new(Second::start(table))),
        "bare-O2" => Some(Box::new(Bare::start(table, &O2))),
        "bare-O3" => Some(Box::new(Bare::start(table, &O3))),
        _ => None,
    }
}

/// The static library.
#[derive(Clone, Copy)]
struct Library(raw::State);

#[inline(never)]
fn measured_library(mut state: raw::State, reports: &[u64], grants: &mut [u64]) -> raw::State {
    let tasks = grants.len();
    for report in reports.chunks_exact(tasks) {
        // SAFETY: both lists are as long as told, and the marks of a `raw::State` are bools.
        let ticked = unsafe {
            raw::piszczalin_tick(state, report.as_ptr(), tasks, grants.as_mut_ptr(), tasks)
        };
        state = ticked.state;
    }
    state
}

impl Library {
    fn start(table: &Table) -> Library {
        let lists = [&table.periods, &table.reserves, &table.speeds, &table.volts];
        let started = library::start(&lists.map(Clone::clone));
        assert_eq!(started.number, 0, "the library admits the table");
        Library(started.state)
    }
}

impl Governor for Library {
    fn name(&self) -> &'static str {
        NAMES[0]
    }

    fn copy(&self) -> Box<dyn Governor> {
        Box::new(*self)
    }

    fn move_on(&mut self, ticks: u64) {
        self.0.done.0 += ticks;
    }

    fn tick(&mut self, report: &[u64], grants: &mut [u64]) -> u64 {
        let ticked = library::tick(self.0, report, grants);
        self.0 = ticked.state;
        ticked.number
    }

    fn play(&self, reports: &[u64], grants: &mut [u64]) -> Seen {
        Library(measured_library(self.0, reports, grants)).seen()
    }

    fn seen(&self) -> Seen {
        let (tasks, speeds) = (self.0.tasks.count, self.0.ladder.count);
        let plain = |list: &[piszczalin::Cycles]| list.iter().map(|cycles| cycles.0).collect();
        Seen {
            done: self.0.done.0,
            run: plain(&self.0.jobs.run[..tasks]),
            over: self.0.jobs.over[..tasks]
                .iter()
                .map(|&mark| mark == 1)
                .collect(),
            counts: plain(&self.0.tally.counts[..speeds]),
            idle: self.0.tally.idle.0,
            late: self.0.tally.late,
            cut: self.0.tally.cut,
        }
    }
}

/// The second program.
#[derive(Clone, Copy)]
struct Second(second::State);

#[inline(never)]
fn measured_second(mut state: second::State, reports: &[u64], grants: &mut [u64]) -> second::State {
    for report in reports.chunks_exact(grants.len()) {
        state = second::tick(&state, report, grants).1;
    }
    state
}

impl Second {
    fn start(table: &Table) -> Second {
        let (number, state) =
            second::start(&table.periods, &table.reserves, &table.speeds, &table.volts);
        assert_eq!(number, 0, "second admits the table");
        Second(state)
    }
}

impl Governor for Second {
    fn name(&self) -> &'static str {
        NAMES[1]
    }

    fn copy(&self) -> Box<dyn Governor> {
        Box::new(*self)
    }

    fn move_on(&mut self, ticks: u64) {
        self.0.t += ticks;
    }

    fn tick(&mut self, report: &[u64], grants: &mut [u64]) -> u64 {
        let (number, state) = second::tick(&self.0, report, grants);
        self.0 = state;
        number
    }

    fn play(&self, reports: &[u64], grants: &mut [u64]) -> Seen {
        Second(measured_second(self.0, reports, grants)).seen()
    }

    fn seen(&self) -> Seen {
        let (tasks, speeds) = (self.0.task_count as usize, self.0.speed_count as usize);
        Seen {
            done: self.0.t,
            run: self.0.run[..tasks].to_vec(),
            over: self.0.over[..tasks].to_vec(),
            counts: self.0.counts[..speeds].to_vec(),
            idle: self.0.idle,
            late: self.0.late,
            cut: self.0.cut,
        }
    }
}

/// `struct bare_task` of bare.h.
#[repr(C)]
#[derive(Clone, Copy, Default)]
struct BareTask {
    period: u64,
    reserve: u64,
    jobs: u64,
    deadline: u64,
    run: u64,
    over: bool,
}

/// `struct bare_speed` of bare.h.
#[repr(C)]
#[derive(Clone, Copy, Default)]
struct BareSpeed {
    speed: u64,
    carries: u64,
    count: u64,
}

/// `struct bare` of bare.h.
#[repr(C)]
#[derive(Clone, Copy, Default)]
struct BareState {
    done: u64,
    load: u64,
    next: u64,
    idle: u64,
    late: u64,
    cut: u64,
    tasks: usize,
    ready: usize,
    order: [u8; 16],
    task: [BareTask; 16],
    speed: [BareSpeed; 8],
}

type BareStart =
    unsafe extern "C" fn(*mut BareState, *const u64, *const u64, usize, *const u64, usize);
type BareTick = unsafe extern "C" fn(*mut BareState, *const u64, *mut u64) -> i32;
type BareMoveOn = unsafe extern "C" fn(*mut BareState, u64);

/// The functions of bare.c at one level of the C compiler.
struct Level {
    name: &'static str,
    start: BareStart,
    tick: BareTick,
    move_on: BareMoveOn,
}

extern "C" {
    fn bare_start_O2(
        b: *mut BareState,
        periods: *const u64,
        reserves: *const u64,
        tasks: usize,
        speeds: *const u64,
        count: usize,
    );
    fn bare_tick_O2(b: *mut BareState, report: *const u64, grants: *mut u64) -> i32;
    fn bare_move_on_O2(b: *mut BareState, ticks: u64);
    fn bare_start_O3(
        b: *mut BareState,
        periods: *const u64,
        reserves: *const u64,
        tasks: usize,
        speeds: *const u64,
        count: usize,
    );
    fn bare_tick_O3(b: *mut BareState, report: *const u64, grants: *mut u64) -> i32;
    fn bare_move_on_O3(b: *mut BareState, ticks: u64);
}

static O2: Level = Level {
    name: NAMES[2],
    start: bare_start_O2,
    tick: bare_tick_O2,
    move_on: bare_move_on_O2,
};

static O3: Level = Level {
    name: NAMES[3],
    start: bare_start_O3,
    tick: bare_tick_O3,
    move_on: bare_move_on_O3,
};

/// The bare governor.
#[derive(Clone, Copy)]
struct Bare {
    state: BareState,
    speeds: usize,
    level: &'static Level,
}

#[inline(never)]
fn measured_bare(state: &mut BareState, tick: BareTick, reports: &[u64], grants: &mut [u64]) {
    for report in reports.chunks_exact(grants.len()) {
        // SAFETY: the state is its own start's, and both lists are as long as its task count.
        unsafe { tick(state, report.as_ptr(), grants.as_mut_ptr()) };
    }
}

impl Bare {
    fn start(table: &Table, level: &'static Level) -> Bare {
        let mut state = BareState::default();
        let speeds = table.speeds.len();
        // SAFETY: each list is as long as told, and the table is admitted.
        unsafe {
            (level.start)(
                &mut state,
                table.periods.as_ptr(),
                table.reserves.as_ptr(),
                table.periods.len(),
                table.speeds.as_ptr(),
                speeds,
            )
        };
        Bare {
            state,
            speeds,
            level,
        }
    }
}

impl Governor for Bare {
    fn name(&self) -> &'static str {
        self.level.name
    }

    fn copy(&self) -> Box<dyn Governor> {
        Box::new(*self)
    }

    fn move_on(&mut self, ticks: u64) {
        // SAFETY: the state is its own start's.
        unsafe { (self.level.move_on)(&mut self.state, ticks) };
    }

    fn tick(&mut self, report: &[u64], grants: &mut [u64]) -> u64 {
        assert!(report.len() == self.state.tasks && grants.len() == self.state.tasks);
        // SAFETY: the state is its own start's, and both lists are as long as its task count.
        let number =
            unsafe { (self.level.tick)(&mut self.state, report.as_ptr(), grants.as_mut_ptr()) };
        number as u64
    }

    fn play(&self, reports: &[u64], grants: &mut [u64]) -> Seen {
        assert_eq!(grants.len(), self.state.tasks);
        let mut played = *self;
        measured_bare(&mut played.state, self.level.tick, reports, grants);
        played.seen()
    }

    fn seen(&self) -> Seen {
        let (tasks, speeds) = (
            &self.state.task[..self.state.tasks],
            &self.state.speed[..self.speeds],
        );
        Seen {
            done: self.state.done,
            run: tasks.iter().map(|task| task.run).collect(),
            over: tasks.iter().map(|task| task.over).collect(),
            counts: speeds.iter().map(|speed| speed.count).collect(),
            idle: self.state.idle,
            late: self.state.late,
            cut: self.state.cut,
        }
    }
}
