//! What a point can be: the two widths of the library.

use core::fmt::{Debug, Display};

use crate::ffi::{Functions, Readings};

/// A point that a list can have a price for: a seat (`u32`) or an instant (`i64`).
///
/// No other type can be a point: the proved library has these two widths.
///
/// ```
/// use guineatwirl::Point;
///
/// assert_eq!(<u32 as Point>::LEAST, 0);
/// assert_eq!(<i64 as Point>::GREATEST, i64::MAX);
/// ```
pub trait Point:
    Functions + Readings + Copy + Ord + Debug + Display + Send + Sync + 'static
{
    /// The least point.
    const LEAST: Self;

    /// The greatest point.
    const GREATEST: Self;
}

impl Point for u32 {
    const LEAST: Self = u32::MIN;
    const GREATEST: Self = u32::MAX;
}

impl Point for i64 {
    const LEAST: Self = i64::MIN;
    const GREATEST: Self = i64::MAX;
}
