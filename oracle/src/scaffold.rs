//! What the unchanged files lean on, cut down to what they use.

use core::{fmt, iter::FusedIterator, ops::RangeInclusive};

/// The crate's `Integer` without the methods that the six files never call.
pub trait Integer: Copy + PartialEq + PartialOrd + Ord + fmt::Debug + Send + Sync {
    fn checked_add_one(self) -> Option<Self>;
    #[must_use]
    fn add_one(self) -> Self;
    #[must_use]
    fn sub_one(self) -> Self;
    #[must_use]
    fn min_value() -> Self;
    #[must_use]
    fn max_value() -> Self;
}

macro_rules! impl_integer {
    ($type:ty) => {
        impl Integer for $type {
            #[inline]
            fn checked_add_one(self) -> Option<Self> {
                self.checked_add(1)
            }

            #[inline]
            fn add_one(self) -> Self {
                self + 1
            }

            #[inline]
            fn sub_one(self) -> Self {
                self - 1
            }

            #[inline]
            fn min_value() -> Self {
                Self::MIN
            }

            #[inline]
            fn max_value() -> Self {
                Self::MAX
            }
        }
    };
}

impl_integer!(u32);
impl_integer!(i64);

/// What carries a value through the iterators.
pub trait ValueCarrier: Clone {
    type Value: Eq + Clone;

    /// Whether two carriers carry equal values.
    fn value_eq(&self, other: &Self) -> bool;
    fn into_value(self) -> Self::Value;
}

/// A value carried inline.
#[derive(Clone, Copy, Debug, PartialEq, Eq)]
pub struct Owned<V>(pub V);

impl<V: Eq + Clone> ValueCarrier for Owned<V> {
    type Value = V;

    #[inline]
    fn value_eq(&self, other: &Self) -> bool {
        self.0 == other.0
    }

    #[inline]
    fn into_value(self) -> V {
        self.0
    }
}

/// Marks iterators whose ranges come sorted by start.
pub trait SortedStartsMap<T, VC>: Iterator<Item = (RangeInclusive<T>, VC)> + FusedIterator
where
    T: Integer,
    VC: ValueCarrier,
{
}

/// Marks iterators whose ranges come sorted and disjoint.
pub trait SortedDisjointMap<T, VC>: SortedStartsMap<T, VC>
where
    T: Integer,
    VC: ValueCarrier,
{
}

/// One list of the lent columns, claiming `SortedDisjointMap` unchecked: touching ranges with
/// equal values pass as they are.
#[derive(Clone, Debug)]
pub struct UncheckedList<'a, T> {
    pub starts: &'a [T],
    pub ends: &'a [T],
    pub values: &'a [i32],
}

impl<T: Integer> Iterator for UncheckedList<'_, T> {
    type Item = (RangeInclusive<T>, Owned<i32>);

    #[inline]
    fn next(&mut self) -> Option<Self::Item> {
        let start = self.starts.split_off_first()?;
        let end = self.ends.split_off_first()?;
        let value = self.values.split_off_first()?;
        Some((*start..=*end, Owned(*value)))
    }
}

impl<T: Integer> FusedIterator for UncheckedList<'_, T> {}
impl<T: Integer> SortedStartsMap<T, Owned<i32>> for UncheckedList<'_, T> {}
impl<T: Integer> SortedDisjointMap<T, Owned<i32>> for UncheckedList<'_, T> {}
