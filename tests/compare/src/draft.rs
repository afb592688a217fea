//! A run file before it is text.

/// Wider than 64 bits, so that a field past them can be written too.
pub type Number = u128;

/// Tick, task from 1 and cycles of an end line.
pub type End = (Number, Number, Number);

#[derive(Clone)]
pub struct Draft {
    /// Period and reserve of each task line.
    pub tasks: Vec<(Number, Number)>,
    /// Speed and volts of each speed line.
    pub speeds: Vec<(Number, Number)>,
    pub ends: Vec<End>,
    /// Ticks of the run line.
    pub ticks: Number,
}

impl Draft {
    /// A run of these tables with no end lines.
    pub fn of(tasks: Vec<(Number, Number)>, speeds: Vec<(Number, Number)>, ticks: Number) -> Draft {
        Draft {
            tasks,
            speeds,
            ends: Vec::new(),
            ticks,
        }
    }

    /// Task lines, speed lines, end lines, one run line.
    pub fn lines(&self) -> Vec<String> {
        let mut lines = Vec::new();
        lines.extend(self.tasks.iter().map(|(p, c)| format!("task,{p},{c}")));
        lines.extend(self.speeds.iter().map(|(s, v)| format!("speed,{s},{v}")));
        lines.extend(self.ends.iter().map(|(t, i, u)| format!("end,{t},{i},{u}")));
        lines.push(format!("run,{}", self.ticks));
        lines
    }

    pub fn text(&self) -> Vec<u8> {
        (self.lines().join("\n") + "\n").into_bytes()
    }

    /// The great period of an admitted table.
    pub fn great_period(&self) -> Number {
        let periods: Vec<Number> = self.tasks.iter().map(|task| task.0).collect();
        great_period(&periods)
    }

    /// The sum of reserve x (H / P).
    pub fn load(&self) -> Number {
        let great = self.great_period();
        self.tasks.iter().map(|(p, c)| c * (great / p)).sum()
    }

    /// Top speed x H.
    pub fn carried(&self) -> Number {
        self.speeds.last().map_or(0, |top| top.0) * self.great_period()
    }
}

/// The least common multiple of the periods.
pub fn great_period(periods: &[Number]) -> Number {
    periods
        .iter()
        .fold(1, |great, &period| great / divisor(great, period) * period)
}

/// The greatest common divisor.
fn divisor(a: Number, b: Number) -> Number {
    match b {
        0 => a,
        _ => divisor(b, a % b),
    }
}
