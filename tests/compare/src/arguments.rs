//! How the programs are run.

use std::path::PathBuf;

pub const USAGE: &str = "\
compare --bench 'CMD WORDS' --second PATH [--many 'CMD WORDS'] [--every N] [--runs DIR]..
compare --cost-file PATH";

/// What the command line says.
#[derive(Default)]
pub struct Arguments {
    /// The bench: one process for one file.
    pub bench: Vec<String>,
    /// The second program.
    pub second: Vec<String>,
    /// The bench's answers to many files from one process.
    pub many: Option<Vec<String>>,
    /// With many, every N-th generated file goes through the bench too.
    pub every: usize,
    /// The folders of the kept files.
    pub runs: Vec<PathBuf>,
    /// Only write the file that the cost is measured on.
    pub cost_file: Option<PathBuf>,
}

impl Arguments {
    pub fn read(mut words: impl Iterator<Item = String>) -> Result<Arguments, String> {
        let mut arguments = Arguments {
            every: 1,
            ..Arguments::default()
        };
        while let Some(name) = words.next() {
            let value = words.next().ok_or(format!("{name} wants a value"))?;
            arguments.set(&name, value)?;
        }
        let complete = !arguments.bench.is_empty() && !arguments.second.is_empty();
        if !complete && arguments.cost_file.is_none() {
            return Err("the bench and the second program are wanted".to_string());
        }
        Ok(arguments)
    }

    fn set(&mut self, name: &str, value: String) -> Result<(), String> {
        match name {
            "--bench" => self.bench = split(&value)?,
            "--second" => self.second = vec![value],
            "--many" => self.many = Some(split(&value)?),
            "--every" => self.every = count(&value)?,
            "--runs" => self.runs.push(value.into()),
            "--cost-file" => self.cost_file = Some(value.into()),
            _ => return Err(format!("{name} is not known")),
        }
        Ok(())
    }
}

/// Words split at spaces, at least one.
fn split(value: &str) -> Result<Vec<String>, String> {
    let words: Vec<String> = value.split_whitespace().map(String::from).collect();
    if words.is_empty() {
        return Err("a command is wanted".to_string());
    }
    Ok(words)
}

/// A count of at least 1.
fn count(value: &str) -> Result<usize, String> {
    match value.parse() {
        Ok(count) if count > 0 => Ok(count),
        _ => Err(format!("{value} is no count from 1 on")),
    }
}
