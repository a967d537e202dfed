//! Three counts that never mix: cycles, ticks and percents.
//!
//! There is no conversion between them. The one place where they meet is
//! [`budget`].

use std::ops::{AddAssign, SubAssign};

/// A count of processor cycles.
#[derive(Clone, Copy, Debug, Default, PartialEq, Eq, PartialOrd, Ord)]
pub struct Cycles(pub u32);

/// A count of clock ticks.
#[derive(Clone, Copy, Debug, Default, PartialEq, Eq, PartialOrd, Ord)]
pub struct Ticks(pub u32);

/// A whole percent.
#[derive(Clone, Copy, Debug, Default, PartialEq, Eq, PartialOrd, Ord)]
pub struct Percent(pub u32);

/// Cycles that may have been overdrawn: budget less used.
#[derive(Clone, Copy, Debug, Default, PartialEq, Eq, PartialOrd, Ord)]
pub struct Balance(pub i64);

impl AddAssign for Cycles {
    fn add_assign(&mut self, other: Cycles) {
        self.0 += other.0;
    }
}

impl SubAssign for Cycles {
    fn sub_assign(&mut self, other: Cycles) {
        self.0 -= other.0;
    }
}

/// The window budget of a partition. The cycles a tick are a multiple of
/// 100, so dividing them first loses nothing and keeps within 32 bits
/// (399,960,000 at most).
pub fn budget(share: Percent, window: Ticks, tick: Cycles) -> Cycles {
    Cycles(share.0 * window.0 * (tick.0 / 100))
}
