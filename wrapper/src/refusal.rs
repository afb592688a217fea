//! The numbers a caller may see, but for 0: why a call refused.
use core::error::Error;
use core::fmt;

/// Why a call refused, under the numbers 1 to 13 of docs/RULES.md. The smallest that applies is given.
#[repr(u8)]
#[derive(Clone, Copy, Debug, PartialEq, Eq, PartialOrd, Ord, Hash)]
pub enum Refusal {
    /// start: 0 or more than 16 periods, or as many reserves not given.
    Tasks = 1,
    /// start: 0 or more than 8 speeds, or as many volts not given.
    Speeds = 2,
    /// start: a period outside its range, 1 to 1,000,000.
    Period = 3,
    /// start: a reserve outside its range, 1 to 1,000,000,000.
    Reserve = 4,
    /// start: a speed outside its range, 1 to 1,000,000, or not above the one before.
    Speed = 5,
    /// start: a volt value outside its range, 1 to 100, or below the one before.
    Volts = 6,
    /// start: the great period is above 1,000,000.
    GreatPeriod = 7,
    /// start: not admitted by rule 7.
    NotAdmitted = 8,
    /// now, tick, energy: the state is unsound.
    Unsound = 9,
    /// now, tick: 1,000,000,000 ticks are done.
    RunDone = 10,
    /// tick: the report or the grants list is not as long as the task count.
    Length = 11,
    /// now, tick: no listed speed carries the load. No sound state gives it.
    NoSpeed = 12,
    /// tick: an entry breaks rule 4.
    Entry = 13,
}

impl Refusal {
    /// All of them, by their numbers.
    pub const ALL: [Refusal; 13] = [
        Refusal::Tasks,
        Refusal::Speeds,
        Refusal::Period,
        Refusal::Reserve,
        Refusal::Speed,
        Refusal::Volts,
        Refusal::GreatPeriod,
        Refusal::NotAdmitted,
        Refusal::Unsound,
        Refusal::RunDone,
        Refusal::Length,
        Refusal::NoSpeed,
        Refusal::Entry,
    ];

    /// Its number in docs/RULES.md: 1 to 13.
    #[must_use]
    pub const fn number(self) -> u64 {
        self as u64
    }

    /// The refusal with this number; none for 0, which is no refusal, and above 13.
    #[must_use]
    pub fn from_number(number: u64) -> Option<Refusal> {
        Refusal::ALL
            .into_iter()
            .find(|refusal| refusal.number() == number)
    }

    // The table of the numbers, row by row.
    const fn words(self) -> &'static str {
        match self {
            Refusal::Tasks => "0 or more than 16 periods, or as many reserves not given",
            Refusal::Speeds => "0 or more than 8 speeds, or as many volts not given",
            Refusal::Period => "a period outside its range",
            Refusal::Reserve => "a reserve outside its range",
            Refusal::Speed => "a speed outside its range or not above the one before",
            Refusal::Volts => "a volt value outside its range or below the one before",
            Refusal::GreatPeriod => "H above 1,000,000",
            Refusal::NotAdmitted => "not admitted by rule 7",
            Refusal::Unsound => "the state is unsound",
            Refusal::RunDone => "1,000,000,000 ticks are done",
            Refusal::Length => "the report or the grants list is not as long as the task count",
            Refusal::NoSpeed => "no listed speed carries the load",
            Refusal::Entry => "an entry breaks rule 4",
        }
    }
}

impl fmt::Display for Refusal {
    fn fmt(&self, out: &mut fmt::Formatter<'_>) -> fmt::Result {
        write!(out, "refused, {}: {}", self.number(), self.words())
    }
}

impl Error for Refusal {}

// Nothing to say for the number 0, the refusal for the others.
pub(crate) fn accepted(number: u64) -> Result<(), Refusal> {
    match number {
        0 => Ok(()),
        _ => Err(Refusal::from_number(number).expect("the library's numbers are 0 to 13")),
    }
}
