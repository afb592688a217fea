//! The speed governor and its bench, written from the documents alone.
//!
//! Rule numbers in the comments are those of document 01, "Load, choice,
//! settlement"; refusal numbers those of "Numbers a caller may see".
#![forbid(unsafe_code)]

mod course;
mod governor;
mod numbers;
mod play;
mod runfile;
mod state;
mod table;
mod text;

pub use governor::{energy, now, start, tick};
pub use numbers::{greatest_common_divisor, least_common_multiple};
pub use play::{play, Ending, Played, Watch};
pub use runfile::{RunFile, LONGEST_TEXT};
pub use state::{sound, State};
pub use table::{GREATEST_PERIOD, LONGEST_RUN, SPEEDS, TASKS};
pub use text::bench;
