//! The speed governor of a cordless density head. The four calls are a library that is proved to be the rules of
//! docs/RULES.md for every input; this crate is the safe way to it from Rust.
//!
//! ```
//! use piszczalin::{start, Choice, Cycles, Entry, Speed, Ticks, Volts};
//!
//! // three tasks, three speeds: the paper's table
//! let mut state = start(
//!     &[Ticks(8), Ticks(10), Ticks(14)],
//!     &[Cycles(300), Cycles(300), Cycles(100)],
//!     &[Speed(50), Speed(75), Speed(100)],
//!     &[Volts(30), Volts(40), Volts(50)],
//! )?;
//!
//! // what to do in the next tick
//! let told = state.now()?;
//! assert_eq!(told.choice, Choice::Task { number: 1, deadline: Ticks(8) });
//! assert_eq!(told.speed, Speed(75));
//!
//! // what happened in it: the job of task 1 finished after 60 cycles, the others did not finish
//! let finish = Entry::finished_after(Cycles(60)).expect("not 0");
//! let mut grants = [Cycles(0); 3];
//! state = state.tick(&[finish, Entry::NO_FINISH, Entry::NO_FINISH], &mut grants)?;
//! assert_eq!(grants, [Cycles(60), Cycles(15), Cycles(0)]);
//! assert_eq!(state.energy()?, 75 * 40 * 40);
//! # Ok::<(), piszczalin::Refusal>(())
//! ```
//!
//! The calls keep nothing and allocate nothing, end for every input and never panic. They may be made from any thread. The library is for
//! x86-64 Linux; elsewhere this crate can be checked and its structs used, and a program that makes a call does not link.
#![no_std]
#![deny(improper_ctypes, missing_docs, unsafe_op_in_unsafe_fn)]

mod bytes;
pub mod raw;
mod refusal;
mod state;
mod units;

pub use refusal::Refusal;
pub use state::{start, Choice, Entry, State, Told};
pub use units::{Cycles, Speed, Ticks, Volts};
