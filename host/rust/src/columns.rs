//! Columns of pieces, events and prices, as the host lends them: to be written from the front on,
//! or to be read.

use crate::{Event, Pair, Piece, Point};

/// The presence bits of a two-way piece.
const LEFT: u8 = 1;
const RIGHT: u8 = 2;

/// The kind of an event that starts a range. That of one that ends a range is 1.
const START: u8 = 0;

/// Columns for the pieces of a many-way join or of a selection.
///
/// ```
/// use guineatwirl::{Lists, Piece, PieceColumns, Tariff, lent};
///
/// let lists = Lists::from_iter([[Tariff::new(1_u32..=5, 100)], [Tariff::new(5..=9, 20)]]);
/// let (mut starts, mut ends, mut values) = ([0; 8], [0; 8], [0; 8]);
/// let mut columns =
///     PieceColumns { starts: &mut starts, ends: &mut ends, values: &mut values };
/// assert_eq!(columns.room(), 8);
///
/// let written = lent::multiway_union(lists.lend(), &mut columns)?;
/// assert_eq!(written, 2);
/// assert_eq!(columns.starts[..written], [1, 5]);
/// assert_eq!(columns.pieces(written).next(), Some(Piece { start: 1, end: 4, value: 100 }));
/// # Ok::<(), guineatwirl::Refusal>(())
/// ```
#[derive(Debug, PartialEq, Eq)]
pub struct PieceColumns<'a, P> {
    /// The first point of each piece.
    pub starts: &'a mut [P],
    /// The last point of each piece.
    pub ends: &'a mut [P],
    /// The value of each piece.
    pub values: &'a mut [i64],
}

impl<P: Point> PieceColumns<'_, P> {
    /// For how many pieces there is room: the length of the shortest column.
    #[must_use]
    pub fn room(&self) -> usize {
        self.starts.len().min(self.ends.len()).min(self.values.len())
    }

    /// The first `count` pieces, or all that there is room for where that is fewer, to be read at
    /// points.
    ///
    /// ```
    /// use guineatwirl::{Lists, PieceColumns, Tariff, lent};
    ///
    /// let lists = Lists::from_iter([[Tariff::new(1_u32..=5, 100)], [Tariff::new(5..=9, 20)]]);
    /// let mut columns =
    ///     PieceColumns { starts: &mut [0; 8], ends: &mut [0; 8], values: &mut [0; 8] };
    /// let written = lent::multiway_union(lists.lend(), &mut columns)?;
    /// assert_eq!(lent::price_at(columns.written(written), 5), Some(20));
    /// # Ok::<(), guineatwirl::Refusal>(())
    /// ```
    #[must_use]
    pub fn written(&self, count: usize) -> LentPieces<'_, P> {
        let count = count.min(self.room());
        LentPieces {
            starts: &self.starts[..count],
            ends: &self.ends[..count],
            values: &self.values[..count],
        }
    }

    /// The first `count` pieces, or all that there is room for where that is fewer.
    pub fn pieces(&self, count: usize) -> impl Iterator<Item = Piece<P>> {
        let ranges = self.starts.iter().zip(&*self.ends);
        let pieces = ranges.zip(&*self.values);
        pieces.take(count).map(|((&start, &end), &value)| Piece { start, end, value })
    }
}

/// Pieces in columns, as they are lent to be read. Those that all three columns have are read.
///
/// A host that keeps its pieces in columns lends them as they are; [`PieceColumns::written`] makes
/// one of the columns that an operation wrote, [`Prices::lend`](crate::Prices::lend) one of pieces.
///
/// ```
/// use guineatwirl::{LentPieces, lent};
///
/// let pieces = LentPieces { starts: &[1_u32, 6], ends: &[4, 9], values: &[100, 20] };
/// assert_eq!(lent::price_at(pieces, 4), Some(100));
/// assert_eq!(lent::price_at(pieces, 5), None);
/// ```
#[derive(Clone, Copy, Debug, PartialEq, Eq)]
pub struct LentPieces<'a, P> {
    /// The first point of each piece.
    pub starts: &'a [P],
    /// The last point of each piece.
    pub ends: &'a [P],
    /// The value of each piece.
    pub values: &'a [i64],
}

/// Columns for the prices at some points.
///
/// ```
/// use guineatwirl::{LentPieces, PriceColumns, lent};
///
/// let pieces = LentPieces { starts: &[1_u32], ends: &[4], values: &[100] };
/// let mut columns = PriceColumns { values: &mut [7; 3], presences: &mut [7; 3] };
/// let written = lent::prices_at(pieces, &[4, 5], &mut columns)?;
/// assert_eq!(*columns.values, [100, 0, 7]);
/// assert_eq!(*columns.presences, [1, 0, 7]);
/// assert!(columns.prices(written).eq([Some(100), None]));
/// # Ok::<(), guineatwirl::Refusal>(())
/// ```
#[derive(Debug, PartialEq, Eq)]
pub struct PriceColumns<'a> {
    /// The price at each point, or 0 where there is none.
    pub values: &'a mut [i64],
    /// 1 where there is a price, 0 where there is none.
    pub presences: &'a mut [u8],
}

impl PriceColumns<'_> {
    /// For how many prices there is room: the length of the shorter column.
    #[must_use]
    pub fn room(&self) -> usize {
        self.values.len().min(self.presences.len())
    }

    /// The first `count` prices, or all that there is room for where that is fewer.
    pub fn prices(&self, count: usize) -> impl Iterator<Item = Option<i64>> {
        let rows = self.values.iter().zip(&*self.presences);
        rows.take(count).map(|(&value, &presence)| (presence != 0).then_some(value))
    }
}

/// Columns for the pieces of a two-way join.
///
/// ```
/// use guineatwirl::{Lists, Pair, PairColumns, Tariff, lent};
///
/// let lists = Lists::from_iter([[Tariff::new(1_u32..=5, 100)], [Tariff::new(5..=9, 20)]]);
/// let (mut starts, mut ends) = ([0; 3], [0; 3]);
/// let (mut lefts, mut rights, mut presences) = ([0; 3], [0; 3], [0; 3]);
/// let mut columns = PairColumns {
///     starts: &mut starts,
///     ends: &mut ends,
///     lefts: &mut lefts,
///     rights: &mut rights,
///     presences: &mut presences,
/// };
/// let written = lent::two_way_full_join(lists.lend(), &mut columns)?;
/// assert_eq!(columns.presences[..written], [1, 3, 2]);
/// let last = Pair { start: 6, end: 9, left: None, right: Some(20) };
/// assert_eq!(columns.pieces(written).last(), Some(last));
/// # Ok::<(), guineatwirl::Refusal>(())
/// ```
#[derive(Debug, PartialEq, Eq)]
pub struct PairColumns<'a, P> {
    /// The first point of each piece.
    pub starts: &'a mut [P],
    /// The last point of each piece.
    pub ends: &'a mut [P],
    /// What the left list has, or 0 where it has nothing.
    pub lefts: &'a mut [i32],
    /// What the right list has, or 0 where it has nothing.
    pub rights: &'a mut [i32],
    /// Which lists have something: bit 0 for the left, bit 1 for the right.
    pub presences: &'a mut [u8],
}

impl<P: Point> PairColumns<'_, P> {
    /// For how many pieces there is room: the length of the shortest column.
    #[must_use]
    pub fn room(&self) -> usize {
        let points = self.starts.len().min(self.ends.len());
        points.min(self.lefts.len()).min(self.rights.len()).min(self.presences.len())
    }

    /// The first `count` pieces, or all that there is room for where that is fewer.
    pub fn pieces(&self, count: usize) -> impl Iterator<Item = Pair<P>> {
        let ranges = self.starts.iter().zip(&*self.ends);
        let sides = self.lefts.iter().zip(&*self.rights).zip(&*self.presences);
        ranges.zip(sides).take(count).map(|((&start, &end), ((&left, &right), &presence))| Pair {
            start,
            end,
            left: (presence & LEFT != 0).then_some(left),
            right: (presence & RIGHT != 0).then_some(right),
        })
    }
}

/// Columns for the events of the listing.
///
/// ```
/// use guineatwirl::{Event, EventColumns, Lists, Tariff, lent};
///
/// let lists = Lists::from_iter([[Tariff::new(1_i64..=5, 100)]]);
/// let (mut kinds, mut points, mut of_lists, mut values) = ([0; 2], [0; 2], [0; 2], [0; 2]);
/// let mut columns = EventColumns {
///     kinds: &mut kinds,
///     points: &mut points,
///     lists: &mut of_lists,
///     values: &mut values,
/// };
/// let written = lent::list_events(lists.lend(), &mut columns)?;
/// assert_eq!(columns.kinds[..written], [0, 1]);
/// assert_eq!(columns.events(written).last(), Some(Event::End { point: 5, list: 0 }));
/// # Ok::<(), guineatwirl::Refusal>(())
/// ```
#[derive(Debug, PartialEq, Eq)]
pub struct EventColumns<'a, P> {
    /// What happens: 0 where a range starts, 1 where it ends.
    pub kinds: &'a mut [u8],
    /// Where it happens: the first point of a range, or its last.
    pub points: &'a mut [P],
    /// The list that has the range, counted from 0.
    pub lists: &'a mut [u8],
    /// The value of a range that starts, or 0 where one ends.
    pub values: &'a mut [i32],
}

impl<P: Point> EventColumns<'_, P> {
    /// For how many events there is room: the length of the shortest column.
    #[must_use]
    pub fn room(&self) -> usize {
        let places = self.kinds.len().min(self.points.len());
        places.min(self.lists.len()).min(self.values.len())
    }

    /// The first `count` events, or all that there is room for where that is fewer.
    pub fn events(&self, count: usize) -> impl Iterator<Item = Event<P>> {
        let happened = self.kinds.iter().zip(&*self.points);
        let to_whom = self.lists.iter().zip(&*self.values);
        happened.zip(to_whom).take(count).map(|((&kind, &point), (&list, &value))| {
            let list = usize::from(list);
            if kind == START {
                Event::Start { point, list, value }
            } else {
                Event::End { point, list }
            }
        })
    }
}
