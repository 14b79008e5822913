//! Amounts as text.

use std::fmt;

/// An amount of whole øre, shown in kroner with two decimals and "-" before negatives only: minus
/// 5 øre is `-0.05`. A width is kept, as for a number.
#[derive(Clone, Copy, Debug, Default, PartialEq, Eq, PartialOrd, Ord, Hash)]
pub struct Kroner(pub i64);

impl fmt::Display for Kroner {
    fn fmt(&self, to: &mut fmt::Formatter<'_>) -> fmt::Result {
        let size = self.0.unsigned_abs();
        let digits = format!("{}.{:02}", size / 100, size % 100);
        to.pad_integral(self.0 >= 0, "", &digits)
    }
}
