//! Lists of tariffs, and sets of them as they are laid in columns and lent.

use core::ops::RangeInclusive;

use crate::{MOST_PIECES, Place, Point};

/// One range of a list with its value, in whole pence. A discount is negative.
///
/// ```
/// use guineatwirl::Tariff;
///
/// let stalls = Tariff::new(1_u32..=100, 4500);
/// assert_eq!(stalls, Tariff { start: 1, end: 100, value: 4500 });
/// ```
///
/// It lies as the C struct of its width does, so that [`check`](crate::check) copies nothing.
#[derive(Clone, Copy, Debug, PartialEq, Eq, Hash)]
#[repr(C)]
pub struct Tariff<P> {
    /// The first point of the range.
    pub start: P,
    /// The last point of the range.
    pub end: P,
    /// The value at each of its points.
    pub value: i32,
}

impl<P> Tariff<P> {
    /// The range with that value.
    #[must_use]
    pub fn new(range: RangeInclusive<P>, value: i32) -> Self {
        let (start, end) = range.into_inner();
        Self { start, end, value }
    }
}

/// A set of lists, laid end to end in columns as the library takes them.
///
/// ```
/// use guineatwirl::{Lists, Tariff};
///
/// let mut lists = Lists::new();
/// lists.push([Tariff::new(1_u32..=100, 4500), Tariff::new(101..=180, 3000)]);
/// lists.push([Tariff::new(1..=20, 750)]);
/// assert_eq!(lists.lend().starts, [1, 101, 1]);
/// assert_eq!(lists.lend().counts, [2, 1]);
/// ```
///
/// Anything can be pushed: what is wrong with a set of lists is told by the operation that is asked
/// for.
#[derive(Clone, Debug, PartialEq, Eq)]
pub struct Lists<P> {
    starts: Vec<P>,
    ends: Vec<P>,
    values: Vec<i32>,
    counts: Vec<u32>,
}

impl<P> Lists<P> {
    /// No lists.
    #[must_use]
    pub const fn new() -> Self {
        Self { starts: Vec::new(), ends: Vec::new(), values: Vec::new(), counts: Vec::new() }
    }

    /// Adds a list after those that are there.
    pub fn push(&mut self, list: impl IntoIterator<Item = Tariff<P>>) {
        let before = self.starts.len();
        for Tariff { start, end, value } in list {
            self.starts.push(start);
            self.ends.push(end);
            self.values.push(value);
        }
        // A list that has too many ranges to count is refused, whatever the count.
        let count = u32::try_from(self.starts.len() - before).unwrap_or(u32::MAX);
        self.counts.push(count);
    }

    /// Removes all lists and keeps what was allocated, so that the next set can be laid there.
    ///
    /// ```
    /// use guineatwirl::{Lists, Tariff};
    ///
    /// let mut lists = Lists::from_iter([[Tariff::new(1_u32..=100, 4500)]]);
    /// lists.clear();
    /// assert_eq!(lists, Lists::new());
    /// ```
    pub fn clear(&mut self) {
        self.starts.clear();
        self.ends.clear();
        self.values.clear();
        self.counts.clear();
    }

    /// The columns, to lend to the functions of [`lent`](crate::lent).
    #[must_use]
    pub fn lend(&self) -> LentLists<'_, P> {
        let Self { starts, ends, values, counts } = self;
        LentLists { starts, ends, values, counts }
    }
}

impl<P> Default for Lists<P> {
    fn default() -> Self {
        Self::new()
    }
}

/// Each item becomes a list.
impl<P, L: IntoIterator<Item = Tariff<P>>> FromIterator<L> for Lists<P> {
    fn from_iter<I: IntoIterator<Item = L>>(lists: I) -> Self {
        let mut laid = Self::new();
        for list in lists {
            laid.push(list);
        }
        laid
    }
}

/// A set of lists as it is lent: three columns over all ranges, and for each list how many of
/// them are its own. The lists lie end to end.
///
/// A host that keeps its lists in columns lends them as they are; [`Lists::lend`] makes one of
/// lists of tariffs.
///
/// ```
/// use guineatwirl::LentLists;
///
/// let lists = LentLists {
///     starts: &[1_u32, 101, 1],
///     ends: &[100, 180, 20],
///     values: &[4500, 3000, 750],
///     counts: &[2, 1],
/// };
/// assert_eq!(lists.enough_room(), 6);
/// ```
#[derive(Clone, Copy, Debug, PartialEq, Eq)]
pub struct LentLists<'a, P> {
    /// The first point of each range.
    pub starts: &'a [P],
    /// The last point of each range.
    pub ends: &'a [P],
    /// The value of each range, in whole pence.
    pub values: &'a [i32],
    /// How many ranges each list has.
    pub counts: &'a [u32],
}

impl<P: Point> LentLists<'_, P> {
    /// A room that is enough for what any operation makes of these lists, or that the library
    /// refuses for another reason. `n` ranges give at most `2n - 1` pieces, no ranges at most one,
    /// and `2n` events; it is never more than [`MOST_PIECES`].
    #[must_use]
    pub fn enough_room(&self) -> usize {
        self.starts.len().saturating_mul(2).clamp(1, MOST_PIECES)
    }

    /// Where the range of that index stands, or `None` where the counts end before it.
    pub(crate) fn place(&self, index: usize) -> Option<Place> {
        let mut range = index;
        for (list, &count) in self.counts.iter().enumerate() {
            let count = usize::try_from(count).unwrap_or(usize::MAX);
            if range < count {
                return Some(Place { list, range, index });
            }
            range -= count;
        }
        None
    }
}
