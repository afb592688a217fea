//! The bench: a run file on standard input, its text on standard output.

use std::io::{self, Read, Write};
use std::process::ExitCode;

fn main() -> ExitCode {
    match read_and_print() {
        Ok(()) => ExitCode::SUCCESS,
        Err(error) => {
            // Nothing is left to do if this cannot be told either.
            let _ = writeln!(io::stderr(), "second: {error}");
            ExitCode::FAILURE
        }
    }
}

fn read_and_print() -> io::Result<()> {
    // One byte past the longest text is enough to see that it is too long.
    let mut input = Vec::new();
    io::stdin()
        .lock()
        .take(second::LONGEST_TEXT as u64 + 1)
        .read_to_end(&mut input)?;
    let mut output = io::stdout().lock();
    output.write_all(&second::bench(&input))?;
    output.flush()
}
