//! Plays one long run through the static library and the second program in step, each from its own state.

use std::process::ExitCode;

#[cfg(target_arch = "x86_64")]
fn main() -> ExitCode {
    match soak::run() {
        Ok(()) => ExitCode::SUCCESS,
        Err(words) => {
            eprintln!("soak: {words}");
            ExitCode::FAILURE
        }
    }
}

#[cfg(not(target_arch = "x86_64"))]
fn main() -> ExitCode {
    eprintln!("soak: the library is for x86-64, where it is linked into this program");
    ExitCode::FAILURE
}

#[cfg(target_arch = "x86_64")]
mod soak {
    use linked::arguments::{number, pairs};
    use linked::boundary::{self, bytes};
    use linked::compare::differences_of_states;
    use linked::linked as library;
    use linked::random::{Random, SEED};
    use linked::reports::fitting;
    use linked::tally::grouped;
    use piszczalin::raw;
    use second::{State, LONGEST_RUN};
    use std::time::Instant;

    const USAGE: &str = "soak [--ticks N] [--whole N] [--seed N]";
    /// The tasks of the table.
    const TASKS: usize = 4;
    /// The density head of the examples.
    const PERIODS: [u64; TASKS] = [10, 20, 20, 40];
    const RESERVES: [u64; TASKS] = [150, 700, 600, 600];
    const SPEEDS: [u64; 4] = [40, 60, 80, 100];
    const VOLTS: [u64; 4] = [24, 30, 36, 45];

    /// What the command line says.
    struct Arguments {
        ticks: u64,
        /// The whole states are compared after each so many ticks.
        whole: u64,
        seed: u64,
    }

    /// The run so far.
    struct Run {
        random: Random,
        library: raw::State,
        second: State,
        finishes: u64,
        begun: Instant,
    }

    fn arguments() -> Result<Arguments, String> {
        let mut arguments = Arguments {
            ticks: 100_000_000,
            whole: 1_000_000,
            seed: SEED,
        };
        for (name, value) in pairs(std::env::args().skip(1))? {
            match name.as_str() {
                "--ticks" => arguments.ticks = number(&value)?,
                "--whole" => arguments.whole = number(&value)?.max(1),
                "--seed" => arguments.seed = number(&value)?,
                _ => return Err(format!("{name} is not known")),
            }
        }
        Ok(arguments)
    }

    /// Plays the run, and tells how it goes at each tenth of it.
    pub fn run() -> Result<(), String> {
        let arguments = arguments().map_err(|error| format!("{error}\n{USAGE}"))?;
        let ticks = arguments.ticks.min(LONGEST_RUN);
        let mut run = Run::start(arguments.seed)?;
        for done in 1..=ticks {
            run.tick()?;
            if done % arguments.whole == 0 || done == ticks {
                run.compare()?;
            }
            if done % (ticks / 10).max(1) == 0 && done != ticks {
                run.tell()?;
            }
        }
        run.compare()?;
        run.tell()
    }

    impl Run {
        /// The fresh state of each.
        fn start(seed: u64) -> Result<Run, String> {
            let (number, second) = second::start(&PERIODS, &RESERVES, &SPEEDS, &VOLTS);
            let lists = [&PERIODS[..], &RESERVES, &SPEEDS, &VOLTS].map(<[u64]>::to_vec);
            let started = library::start(&lists);
            if (number, started.number) != (0, 0) {
                return Err(format!(
                    "start: library {}, second {number}",
                    started.number
                ));
            }
            let run = Run {
                random: Random::of(seed, 0, 0),
                library: started.state,
                second,
                finishes: 0,
                begun: Instant::now(),
            };
            run.compare()?;
            Ok(run)
        }

        /// One tick of each: the numbers must be 0, and the grants the same.
        fn tick(&mut self) -> Result<(), String> {
            let report = fitting(&mut self.random, &self.second, 4);
            let mut grants = [[u64::MAX; TASKS]; 2];
            let ticked = library::tick(self.library, &report, &mut grants[0]);
            let (number, second) = second::tick(&self.second, &report, &mut grants[1]);
            if (ticked.number, number) != (0, 0) || grants[0] != grants[1] {
                return Err(format!(
                    "library: number {}, grants {:?}; second: number {number}, grants {:?}\n  report {report:?}, {:?}",
                    ticked.number, grants[0], grants[1], self.second
                ));
            }
            self.finishes += report.iter().filter(|&&entry| entry != 0).count() as u64;
            (self.library, self.second) = (ticked.state, second);
            Ok(())
        }

        /// The whole states: all bytes.
        fn compare(&self) -> Result<(), String> {
            let second = boundary::state(&self.second);
            let lines = differences_of_states(bytes(&self.library), ("second", bytes(&second)));
            match lines.is_empty() {
                true => Ok(()),
                false => Err(format!(
                    "after {} ticks\n{}",
                    grouped(self.second.t),
                    lines.join("\n")
                )),
            }
        }

        /// Tells ticks, finishes, cut, idle, energy and seconds.
        fn tell(&self) -> Result<(), String> {
            let used = library::energy(self.library);
            let (number, energy) = second::energy(&self.second);
            if (used.number, used.energy) != (number, energy) {
                return Err(format!("energy: library {used:?}, second {energy}"));
            }
            println!(
                "{} ticks, {} finishes, {} cut, {} idle cycles, energy {}, {:.1} s",
                grouped(self.second.t),
                grouped(self.finishes),
                grouped(self.second.cut),
                grouped(self.second.idle),
                grouped(energy),
                self.begun.elapsed().as_secs_f64()
            );
            Ok(())
        }
    }
}
