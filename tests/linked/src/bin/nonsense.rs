//! Calls the static library and the second program with the same inputs, sense and nonsense, and compares every answer.

use linked::arguments::{command, number, pairs};
use linked::desk::Desk;
use linked::random::SEED;
use linked::tally::Tally;
use linked::{kinds, library};
use std::process::ExitCode;
use std::thread;

const USAGE: &str = "nonsense [--seed N] [--served 'PROGRAM WORDS']";
/// The inputs are shared among so many threads.
const THREADS: usize = 2;

/// What the command line says.
struct Arguments {
    seed: u64,
    /// The program that has the library, where it is not linked into this one.
    served: Option<Vec<String>>,
}

fn arguments() -> Result<Arguments, String> {
    let mut arguments = Arguments {
        seed: SEED,
        served: None,
    };
    for (name, value) in pairs(std::env::args().skip(1))? {
        match name.as_str() {
            "--seed" => arguments.seed = number(&value)?,
            "--served" => arguments.served = Some(command(&value)?),
            _ => return Err(format!("{name} is not known")),
        }
    }
    Ok(arguments)
}

/// Plays every kind of inputs; gives what all threads met.
fn play(arguments: &Arguments) -> std::io::Result<Tally> {
    let share = |share| {
        let mut desk = Desk::new(library::open(arguments.served.as_deref())?);
        kinds::play(arguments.seed, share, THREADS, &mut desk);
        desk.end()
    };
    let mut tally = Tally::new();
    thread::scope(|scope| {
        let started: Vec<_> = (0..THREADS)
            .map(|number| scope.spawn(move || share(number)))
            .collect();
        for thread in started {
            tally.add(&thread.join().expect("a thread ends")?);
        }
        Ok(tally)
    })
}

fn main() -> ExitCode {
    let arguments = match arguments() {
        Ok(arguments) => arguments,
        Err(error) => return failed(&format!("{error}\n{USAGE}")),
    };
    println!("seed {}", arguments.seed);
    match play(&arguments) {
        Err(error) => failed(&error.to_string()),
        Ok(tally) if tally.tell() => ExitCode::SUCCESS,
        Ok(_) => ExitCode::FAILURE,
    }
}

fn failed(words: &str) -> ExitCode {
    eprintln!("nonsense: {words}");
    ExitCode::FAILURE
}
