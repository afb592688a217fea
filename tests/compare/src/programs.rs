//! Running the programs: one file in a process, or many files in one.

use std::io::{BufReader, BufWriter, Error, ErrorKind, Read, Write};
use std::process::{Child, ChildStdin, ChildStdout, Command, Stdio};
use std::thread::{self, Scope};

/// The longest text that goes into a frame.
pub const LONGEST_FRAME: usize = 65_537;

/// What a program printed, or in words why that is no answer.
pub type Answer = Result<Vec<u8>, String>;

/// Starts a program from its words, with pipes to and from it.
fn begin(words: &[String]) -> Result<(Child, ChildStdin, ChildStdout), String> {
    let mut command = Command::new(&words[0]);
    command
        .args(&words[1..])
        .stdin(Stdio::piped())
        .stdout(Stdio::piped());
    let mut child = command
        .spawn()
        .map_err(|error| format!("{} does not start: {error}", words[0]))?;
    let input = child.stdin.take().expect("a pipe");
    let output = child.stdout.take().expect("a pipe");
    Ok((child, input, output))
}

/// Waits for a program's end: its status must be 0.
fn ended(mut child: Child) -> Result<(), String> {
    match child.wait() {
        Ok(status) if status.success() => Ok(()),
        Ok(status) => Err(format!("ended with {status}")),
        Err(error) => Err(error.to_string()),
    }
}

/// One process for one file: the file on standard input, the answer on standard output.
pub fn once(words: &[String], text: &[u8]) -> Answer {
    let (child, mut input, mut output) = begin(words)?;
    let mut answer = Vec::new();
    let read = thread::scope(|scope| {
        // A program may stop reading where the text is too long: that is no fault.
        scope.spawn(move || _ = input.write_all(text));
        output.read_to_end(&mut answer)
    });
    ended(child)?;
    read.map_err(no_answer)?;
    Ok(answer)
}

/// One process for many files, each in a frame.
pub struct Many {
    /// The program and its answers, or why it did not start.
    begun: Result<(Child, BufReader<ChildStdout>), String>,
}

impl Many {
    /// Starts it; a thread of its own writes all frames, so that no pipe blocks.
    pub fn start<'scope>(
        scope: &'scope Scope<'scope, '_>,
        words: &[String],
        texts: Vec<&'scope [u8]>,
    ) -> Many {
        let begun = begin(words).map(|(child, input, output)| {
            scope.spawn(move || _ = write_frames(input, &texts));
            (child, BufReader::new(output))
        });
        Many { begun }
    }

    /// The answer to the next frame: its length in four bytes, the highest first, and its bytes.
    pub fn next(&mut self) -> Answer {
        let (_, answers) = self.begun.as_mut().map_err(|error| error.clone())?;
        let mut length = [0; 4];
        answers.read_exact(&mut length).map_err(no_answer)?;
        let length = u32::from_be_bytes(length);
        let mut answer = Vec::new();
        answers
            .take(length.into())
            .read_to_end(&mut answer)
            .map_err(no_answer)?;
        if answer.len() < length as usize {
            return Err(format!("{} of {length} bytes of an answer", answer.len()));
        }
        Ok(answer)
    }

    /// It ends at the end of input, with nothing after the last answer.
    pub fn end(self) -> Result<(), String> {
        let (child, mut answers) = self.begun?;
        let mut more = Vec::new();
        answers.read_to_end(&mut more).map_err(no_answer)?;
        ended(child)?;
        match more.len() {
            0 => Ok(()),
            length => Err(format!("{length} bytes after the last answer")),
        }
    }
}

fn no_answer(error: Error) -> String {
    match error.kind() {
        ErrorKind::UnexpectedEof => "no answer to this file".to_string(),
        _ => error.to_string(),
    }
}

/// Each text after its length in three bytes, the highest first.
fn write_frames(input: ChildStdin, texts: &[&[u8]]) -> std::io::Result<()> {
    let mut input = BufWriter::new(input);
    for text in texts {
        input.write_all(&(text.len() as u32).to_be_bytes()[1..])?;
        input.write_all(text)?;
    }
    input.flush()
}
