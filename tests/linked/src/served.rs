//! The static library in a process of its own, `serve`: calls and answers as frames over pipes.

use crate::boundary::{bytes, put_words};
use crate::calls::Call;
use crate::library::Library;
use std::io::{Error, Read, Result, Write};
use std::process::{Child, ChildStdin, ChildStdout, Command, Stdio};
use std::thread;

/// Which call a frame is, in its first word: as CALLS numbers them, from 1. This one is none: all answers so far are wanted.
const ALL_SO_FAR: u64 = 0;

pub struct Served {
    process: Child,
    input: ChildStdin,
    output: ChildStdout,
}

impl Served {
    /// Starts the program, given by its words.
    pub fn start(words: &[String]) -> Result<Served> {
        let mut command = Command::new(&words[0]);
        command
            .args(&words[1..])
            .stdin(Stdio::piped())
            .stdout(Stdio::piped());
        let mut process = command
            .spawn()
            .map_err(|error| Error::other(format!("{} does not start: {error}", words[0])))?;
        let input = process.stdin.take().expect("a pipe");
        let output = process.stdout.take().expect("a pipe");
        Ok(Served {
            process,
            input,
            output,
        })
    }
}

impl Library for Served {
    /// A thread of its own writes the frames, so that no pipe blocks.
    fn answer(&mut self, calls: &[Call], answers: &mut Vec<u8>) -> Result<()> {
        let mut frames = Vec::new();
        for call in calls {
            put_frame(&mut frames, call);
        }
        put_head(&mut frames, ALL_SO_FAR, [0; 4]);
        let begin = answers.len();
        let wanted: usize = calls.iter().map(Call::answer_length).sum();
        answers.resize(begin + wanted, 0);
        let Served { input, output, .. } = self;
        thread::scope(|scope| {
            let written = scope.spawn(|| input.write_all(&frames).and_then(|()| input.flush()));
            output
                .read_exact(&mut answers[begin..])
                .map_err(|error| Error::other(format!("serve gives no answer: {error}")))?;
            written.join().expect("a thread ends")
        })
    }

    /// It ends at the end of its input, with status 0 and nothing after the last answer.
    fn end(self: Box<Self>) -> Result<()> {
        let Served {
            mut process,
            input,
            mut output,
        } = *self;
        drop(input);
        let more = output.read_to_end(&mut Vec::new())?;
        let status = process.wait()?;
        match (more, status.success()) {
            (0, true) => Ok(()),
            _ => Err(Error::other(format!(
                "serve ended with {status} and {more} bytes after the last answer"
            ))),
        }
    }
}

/// A frame: the head, the state where the call has one, and the words of the lists.
fn put_frame(frames: &mut Vec<u8>, call: &Call) {
    let word = call.number() as u64 + 1;
    match call {
        Call::Start(lists) => {
            put_head(frames, word, lists.each_ref().map(|list| list.len() as u64));
            lists.iter().for_each(|list| put_words(frames, list));
        }
        Call::Now(given) | Call::Energy(given) => {
            put_head(frames, word, [0; 4]);
            frames.extend_from_slice(bytes(given));
        }
        Call::Tick {
            state: given,
            report,
            grants,
        } => {
            let counts = [report.len() as u64, grants.len() as u64 - 1, 0, 0];
            put_head(frames, word, counts);
            frames.extend_from_slice(bytes(given));
            put_words(frames, report);
            put_words(frames, grants);
        }
    }
}

/// The head of a frame: which call, and the lengths of its lists.
fn put_head(frames: &mut Vec<u8>, word: u64, counts: [u64; 4]) {
    put_words(frames, &[word]);
    put_words(frames, &counts);
}
