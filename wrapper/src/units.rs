//! Ticks, cycles, speeds and volts as types of their own. A count of ticks becomes a count of cycles only through a speed.

/// A count of ticks, the clock's steps.
#[repr(transparent)]
#[derive(Clone, Copy, Debug, Default, PartialEq, Eq, PartialOrd, Ord, Hash)]
pub struct Ticks(pub u64);

/// A count of cycles, in which work is measured.
#[repr(transparent)]
#[derive(Clone, Copy, Debug, Default, PartialEq, Eq, PartialOrd, Ord, Hash)]
pub struct Cycles(pub u64);

/// A speed: cycles per tick.
#[repr(transparent)]
#[derive(Clone, Copy, Debug, Default, PartialEq, Eq, PartialOrd, Ord, Hash)]
pub struct Speed(pub u64);

/// A voltage in whole tenths of a volt.
#[repr(transparent)]
#[derive(Clone, Copy, Debug, Default, PartialEq, Eq, PartialOrd, Ord, Hash)]
pub struct Volts(pub u64);

impl Speed {
    /// The cycles that this speed makes in so many ticks; the largest count there is, where they are more than that.
    ///
    /// ```
    /// use piszczalin::{Cycles, Speed, Ticks};
    /// assert_eq!(Speed(75).cycles_in(Ticks(8)), Cycles(600));
    /// ```
    ///
    /// Neither is taken for the other:
    ///
    /// ```compile_fail
    /// use piszczalin::{Cycles, Ticks};
    /// let work: Cycles = Ticks(8);
    /// ```
    /// ```compile_fail
    /// use piszczalin::{Cycles, Ticks};
    /// let late = Cycles(600) > Ticks(8);
    /// ```
    #[must_use]
    pub const fn cycles_in(self, ticks: Ticks) -> Cycles {
        Cycles(self.0.saturating_mul(ticks.0))
    }

    /// Rule 2: whether this speed carries a load over so many ticks, for every three numbers.
    ///
    /// ```
    /// use piszczalin::{Cycles, Speed, Ticks};
    /// assert!(Speed(75).carries(Ticks(280), Cycles(20_900)));
    /// assert!(!Speed(50).carries(Ticks(280), Cycles(20_900)));
    /// ```
    #[must_use]
    pub const fn carries(self, ticks: Ticks, load: Cycles) -> bool {
        load.0 <= self.cycles_in(ticks).0
    }
}
