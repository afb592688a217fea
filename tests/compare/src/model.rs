//! The rules played plainly, only to find end lines that rule 4 allows and those that break it.

use crate::draft::{Draft, End, Number};

/// A ready job's turn in a tick; nothing left means that it is not reached.
#[derive(Clone, Copy)]
pub struct Turn {
    pub tick: Number,
    /// The task's place: its number less 1.
    pub task: usize,
    pub run: Number,
    pub reserve: Number,
    pub left: Number,
    pub entry: Number,
}

impl Turn {
    /// The highest entry that rule 4 allows.
    pub fn most(&self) -> Number {
        self.reserve.min(self.run + self.left)
    }

    /// The cycles that it gets.
    fn grant(&self) -> Number {
        match self.entry {
            0 => self.left.min(self.reserve - self.run),
            entry => entry - self.run,
        }
    }
}

/// Who says in which turn a job finishes: 0, or the total cycles at which it does.
pub type Choose<'a> = dyn FnMut(&Turn) -> Number + 'a;

pub struct Model {
    tasks: Vec<(Number, Number)>,
    speeds: Vec<Number>,
    great: Number,
    t: Number,
    run: Vec<Number>,
    over: Vec<bool>,
}

impl Model {
    /// All tasks are released at 0. The table must be an admitted one.
    pub fn new(draft: &Draft) -> Model {
        Model {
            tasks: draft.tasks.clone(),
            speeds: draft.speeds.iter().map(|speed| speed.0).collect(),
            great: draft.great_period(),
            t: 0,
            run: vec![0; draft.tasks.len()],
            over: vec![false; draft.tasks.len()],
        }
    }

    /// The tasks whose job is over, with the cycles it ran and its reserve.
    pub fn over(&self) -> Vec<(usize, Number, Number)> {
        let tasks = (0..self.tasks.len()).filter(|&task| self.over[task]);
        tasks
            .map(|task| (task, self.run[task], self.tasks[task].1))
            .collect()
    }

    /// The sum of use x (H / P).
    fn load(&self) -> Number {
        let part = |task: usize| {
            let (period, reserve) = self.tasks[task];
            let used = if self.over[task] {
                self.run[task]
            } else {
                reserve
            };
            used * (self.great / period)
        };
        (0..self.tasks.len()).map(part).sum()
    }

    /// The lowest speed that carries the load.
    fn speed(&self) -> Number {
        let load = self.load();
        let carries = |speed: &&Number| load <= **speed * self.great;
        *self.speeds.iter().find(carries).expect("an admitted table")
    }

    /// The ready tasks by deadline, the lower number first at a tie.
    fn order(&self) -> Vec<usize> {
        let mut ready: Vec<usize> = (0..self.tasks.len())
            .filter(|&task| !self.over[task])
            .collect();
        ready.sort_by_key(|&task| self.tasks[task].0 - self.t % self.tasks[task].0);
        ready
    }

    /// The turns of the next tick, with the entries chosen.
    pub fn turns(&self, choose: &mut Choose) -> Vec<Turn> {
        let mut left = self.speed();
        let turn = |task: usize| {
            let (run, reserve) = (self.run[task], self.tasks[task].1);
            let mut turn = Turn {
                tick: self.t,
                task,
                run,
                reserve,
                left,
                entry: 0,
            };
            if left > 0 {
                turn.entry = choose(&turn);
                left -= turn.grant();
            }
            turn
        };
        self.order().into_iter().map(turn).collect()
    }

    /// Settles a tick: the grants, then the releases.
    pub fn settle(&mut self, turns: &[Turn]) {
        for turn in turns {
            self.run[turn.task] += turn.grant();
            self.over[turn.task] = turn.entry > 0 || self.run[turn.task] == turn.reserve;
        }
        self.t += 1;
        for task in 0..self.tasks.len() {
            let since_release = self.t % self.tasks[task].0;
            if since_release == 0 {
                self.run[task] = 0;
                self.over[task] = false;
            }
        }
    }
}

/// The end lines of a tick, rising by task.
pub fn ends(turns: &[Turn]) -> Vec<End> {
    let finished = turns.iter().filter(|turn| turn.entry > 0);
    let mut ends: Vec<End> = finished
        .map(|turn| (turn.tick, turn.task as Number + 1, turn.entry))
        .collect();
    ends.sort();
    ends
}

/// Plays the run line's ticks and adds their end lines to the draft.
pub fn play(draft: &mut Draft, choose: &mut Choose) -> Model {
    let mut model = Model::new(draft);
    for _ in 0..draft.ticks {
        let turns = model.turns(choose);
        draft.ends.extend(ends(&turns));
        model.settle(&turns);
    }
    model
}
