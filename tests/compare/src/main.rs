//! Compares the bench with the second program: the same run files, the same bytes.

mod arguments;
mod differences;
mod draft;
mod judge;
mod kept;
mod kinds;
mod model;
mod paper;
mod programs;
mod random;
mod tables;
mod tally;

use arguments::{Arguments, USAGE};
use judge::Verdict;
use kinds::Case;
use std::process::ExitCode;

fn main() -> ExitCode {
    match Arguments::read(std::env::args().skip(1)) {
        Err(error) => failed(&format!("{error}\n{USAGE}")),
        Ok(arguments) => match run(&arguments) {
            Err(error) => failed(&error.to_string()),
            Ok(true) => ExitCode::SUCCESS,
            Ok(false) => ExitCode::FAILURE,
        },
    }
}

fn failed(words: &str) -> ExitCode {
    eprintln!("compare: {words}");
    ExitCode::FAILURE
}

/// Writes the cost file, or compares; true when all is as it must be.
fn run(arguments: &Arguments) -> std::io::Result<bool> {
    if let Some(path) = &arguments.cost_file {
        std::fs::write(path, kinds::cost_file())?;
        return Ok(true);
    }
    let mut cases = kinds::generated();
    for folder in &arguments.runs {
        cases.extend(kept::kept(folder)?);
    }
    let verdicts = judge::judge(&cases, arguments);
    Ok(summary(&cases, &verdicts))
}

/// Prints the differences, what was met, and the paper's ratios.
fn summary(cases: &[Case], verdicts: &[Verdict]) -> bool {
    tally::by_kind(cases, verdicts);
    let numbers = tally::by_number(cases, verdicts);
    let ratios = paper::table_4(|name| {
        let case = cases
            .iter()
            .position(|case| case.kept && case.kind == name)?;
        tally::energy(&verdicts[case].last)
    });
    let count = differences::tell(cases, verdicts);
    println!("{} files, {count} differences", cases.len());
    count == 0 && numbers && ratios
}
