//! Amounts of the second program, whose sums can't wrap unseen.

use std::ops::{Add, AddAssign};

/// Whole øre. The scans compare 64-bit numbers, so that millions of books are quick.
#[derive(Clone, Copy, Debug, Default, PartialEq, Eq, PartialOrd, Ord)]
pub struct Ore(i64);

const LEFT: &str = "an amount left the signed 64-bit numbers";

impl Ore {
    pub const ZERO: Ore = Ore(0);
    pub const HIGHEST: Ore = Ore(i64::MAX);

    /// The paper's limits keep every total inside a signed 64-bit number.
    pub fn whole(value: i128) -> Ore {
        Ore(i64::try_from(value).expect(LEFT))
    }

    pub fn number(self) -> i64 {
        self.0
    }
}

impl Add for Ore {
    type Output = Ore;

    fn add(self, other: Ore) -> Ore {
        Ore(self.0.checked_add(other.0).expect(LEFT))
    }
}

impl AddAssign for Ore {
    fn add_assign(&mut self, other: Ore) {
        *self = *self + other;
    }
}
