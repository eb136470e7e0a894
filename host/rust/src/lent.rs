//! The operations over lent columns: nothing is copied and nothing is allocated.
//!
//! Each function writes its pieces to the front of the output columns and tells how many there are,
//! at most the room; later places keep their contents. A call that is refused writes nothing. With
//! [`enough_room`](crate::LentLists::enough_room) there is never too little of it, and the join is
//! made in one pass; with less, a pass goes before that counts the pieces.
//!
//! The functions of the same names at the root of the package take lists of tariffs and make a
//! vector. [`join_file_into`] writes the text of a tariff file to a buffer, and
//! [`join_file`](crate::join_file) makes a string.
//!
//! ```
//! use guineatwirl::{Combiner, LentLists, PieceColumns, Refusal, lent};
//!
//! // Two lists of one range each, held in columns.
//! let lists =
//!     LentLists { starts: &[1_i64, 5], ends: &[5, 9], values: &[100, 20], counts: &[1, 1] };
//! let (mut starts, mut ends, mut values) = ([0; 4], [0; 4], [-1; 4]);
//! let mut columns =
//!     PieceColumns { starts: &mut starts, ends: &mut ends, values: &mut values };
//!
//! let written = lent::multiway_full_join(Combiner::Sum, lists, &mut columns)?;
//! assert_eq!(written, 3);
//! assert_eq!(*columns.values, [100, 120, 20, -1]);
//!
//! // With room for two pieces only, the refusal tells how many are needed.
//! columns.values = &mut columns.values[..2];
//! let refused = lent::multiway_full_join(Combiner::Sum, lists, &mut columns);
//! assert_eq!(refused, Err(Refusal::NoRoom { needed: 3, room: 2 }));
//! # Ok::<(), Refusal>(())
//! ```

pub use crate::file::join_file_into;

use crate::ffi::Answer;
use crate::{
    EventColumns, LentLists, LentPieces, PairColumns, PieceColumns, Point, PriceColumns, Refusal,
};

/// Lists the events: every start and every end of a range, ordered by point. At one point all
/// starts come before all ends, and in each the lists come in order.
///
/// # Errors
///
/// Any [`Refusal`] but that lists are not two or a combiner unknown.
///
/// ```
/// use guineatwirl::{EventColumns, LentLists, lent};
///
/// let lists =
///     LentLists { starts: &[1_i64, 5], ends: &[5, 9], values: &[100, 20], counts: &[1, 1] };
/// let mut columns = EventColumns {
///     kinds: &mut [0; 4],
///     points: &mut [0; 4],
///     lists: &mut [0; 4],
///     values: &mut [0; 4],
/// };
/// let written = lent::list_events(lists, &mut columns)?;
/// assert_eq!(columns.kinds[..written], [0, 0, 1, 1]);
/// assert_eq!(columns.points[..written], [1, 5, 5, 9]);
/// # Ok::<(), guineatwirl::Refusal>(())
/// ```
pub fn list_events<P: Point>(
    lists: LentLists<'_, P>,
    columns: &mut EventColumns<'_, P>,
) -> Result<usize, Refusal> {
    let room = columns.room();
    told(P::list_events(lists, columns), lists, room, None)
}

/// One piece for every left range and right range that share a point: the points that they share.
/// The left list is the first.
///
/// # Errors
///
/// Any [`Refusal`] but that a combiner is unknown.
///
/// ```
/// use guineatwirl::{LentLists, PairColumns, lent};
///
/// let lists = LentLists {
///     starts: &[1_u32, 3, 5],
///     ends: &[10, 4, 6],
///     values: &[100, 7, 8],
///     counts: &[1, 2],
/// };
/// let mut columns = PairColumns {
///     starts: &mut [0; 4],
///     ends: &mut [0; 4],
///     lefts: &mut [0; 4],
///     rights: &mut [0; 4],
///     presences: &mut [0; 4],
/// };
/// let written = lent::two_way_inner_join(lists, &mut columns)?;
/// assert_eq!(columns.starts[..written], [3, 5]);
/// assert_eq!(columns.rights[..written], [7, 8]);
/// # Ok::<(), guineatwirl::Refusal>(())
/// ```
pub fn two_way_inner_join<P: Point>(
    lists: LentLists<'_, P>,
    columns: &mut PairColumns<'_, P>,
) -> Result<usize, Refusal> {
    let room = columns.room();
    told(P::two_way_inner_join(lists, columns), lists, room, None)
}

/// The pieces of [`two_way_full_join`] that the left list covers.
///
/// # Errors
///
/// Any [`Refusal`] but that a combiner is unknown.
///
/// ```
/// use guineatwirl::{LentLists, PairColumns, lent};
///
/// let lists = LentLists {
///     starts: &[1_u32, 3, 5],
///     ends: &[10, 4, 6],
///     values: &[100, 7, 8],
///     counts: &[1, 2],
/// };
/// let mut columns = PairColumns {
///     starts: &mut [0; 4],
///     ends: &mut [0; 4],
///     lefts: &mut [0; 4],
///     rights: &mut [0; 4],
///     presences: &mut [0; 4],
/// };
/// let written = lent::two_way_left_join(lists, &mut columns)?;
/// assert_eq!(columns.starts[..written], [1, 3, 5, 7]);
/// assert_eq!(columns.presences[..written], [1, 3, 3, 1]);
/// # Ok::<(), guineatwirl::Refusal>(())
/// ```
pub fn two_way_left_join<P: Point>(
    lists: LentLists<'_, P>,
    columns: &mut PairColumns<'_, P>,
) -> Result<usize, Refusal> {
    let room = columns.room();
    told(P::two_way_left_join(lists, columns), lists, room, None)
}

/// The points that either list covers, cut where the range that covers them, left or right,
/// changes.
///
/// # Errors
///
/// Any [`Refusal`] but that a combiner is unknown.
///
/// ```
/// use guineatwirl::{LentLists, PairColumns, lent};
///
/// let lists =
///     LentLists { starts: &[1_i64, 5], ends: &[5, 9], values: &[100, 20], counts: &[1, 1] };
/// let mut columns = PairColumns {
///     starts: &mut [0; 4],
///     ends: &mut [0; 4],
///     lefts: &mut [0; 4],
///     rights: &mut [0; 4],
///     presences: &mut [0; 4],
/// };
/// let written = lent::two_way_full_join(lists, &mut columns)?;
/// assert_eq!(columns.starts[..written], [1, 5, 6]);
/// assert_eq!(columns.presences[..written], [1, 3, 2]);
/// # Ok::<(), guineatwirl::Refusal>(())
/// ```
pub fn two_way_full_join<P: Point>(
    lists: LentLists<'_, P>,
    columns: &mut PairColumns<'_, P>,
) -> Result<usize, Refusal> {
    let room = columns.room();
    told(P::two_way_full_join(lists, columns), lists, room, None)
}

/// The points that every list covers, with what the combiner makes of the values there. Pieces that
/// touch and have the same value are one. The combiner is a [`Combiner`](crate::Combiner) or its
/// number. No lists at all cover every point.
///
/// # Errors
///
/// Any [`Refusal`] but that lists are not two.
///
/// ```
/// use guineatwirl::{Combiner, LentLists, PieceColumns, lent};
///
/// let lists = LentLists {
///     starts: &[1_u32, 3, 5],
///     ends: &[10, 4, 6],
///     values: &[100, 7, 8],
///     counts: &[1, 2],
/// };
/// let mut columns =
///     PieceColumns { starts: &mut [0; 4], ends: &mut [0; 4], values: &mut [0; 4] };
/// let written = lent::multiway_inner_join(Combiner::Sum, lists, &mut columns)?;
/// assert_eq!(columns.values[..written], [107, 108]);
/// # Ok::<(), guineatwirl::Refusal>(())
/// ```
pub fn multiway_inner_join<P: Point>(
    combiner: impl Into<u8>,
    lists: LentLists<'_, P>,
    columns: &mut PieceColumns<'_, P>,
) -> Result<usize, Refusal> {
    let (combiner, room) = (combiner.into(), columns.room());
    told(P::multiway_inner_join(combiner, lists, columns), lists, room, Some(combiner))
}

/// The points that any list covers, with what the combiner makes of the values there. Pieces that
/// touch and have the same value are one. The combiner is a [`Combiner`](crate::Combiner) or its
/// number.
///
/// # Errors
///
/// Any [`Refusal`] but that lists are not two.
///
/// ```
/// use guineatwirl::{Combiner, LentLists, PieceColumns, Refusal, lent};
///
/// let lists =
///     LentLists { starts: &[1_i64, 5], ends: &[5, 9], values: &[100, 20], counts: &[1, 1] };
/// let mut columns =
///     PieceColumns { starts: &mut [0; 4], ends: &mut [0; 4], values: &mut [0; 4] };
/// let written = lent::multiway_full_join(Combiner::Largest, lists, &mut columns)?;
/// assert_eq!(columns.values[..written], [100, 20]);
///
/// let refused = lent::multiway_full_join(9, lists, &mut columns);
/// assert_eq!(refused, Err(Refusal::UnknownCombiner { combiner: 9 }));
/// # Ok::<(), Refusal>(())
/// ```
pub fn multiway_full_join<P: Point>(
    combiner: impl Into<u8>,
    lists: LentLists<'_, P>,
    columns: &mut PieceColumns<'_, P>,
) -> Result<usize, Refusal> {
    let (combiner, room) = (combiner.into(), columns.room());
    told(P::multiway_full_join(combiner, lists, columns), lists, room, Some(combiner))
}

/// The points that any list covers, with the value of the last list that covers them. Pieces that
/// touch and have the same value are one.
///
/// # Errors
///
/// Any [`Refusal`] but that lists are not two or a combiner unknown.
///
/// ```
/// use guineatwirl::{LentLists, PieceColumns, lent};
///
/// let lists =
///     LentLists { starts: &[1_i64, 5], ends: &[5, 9], values: &[100, 20], counts: &[1, 1] };
/// let mut columns =
///     PieceColumns { starts: &mut [0; 4], ends: &mut [0; 4], values: &mut [0; 4] };
/// let written = lent::multiway_union(lists, &mut columns)?;
/// assert_eq!(columns.starts[..written], [1, 5]);
/// assert_eq!(columns.values[..written], [100, 20]);
/// # Ok::<(), guineatwirl::Refusal>(())
/// ```
pub fn multiway_union<P: Point>(
    lists: LentLists<'_, P>,
    columns: &mut PieceColumns<'_, P>,
) -> Result<usize, Refusal> {
    let room = columns.room();
    told(P::multiway_union(lists, columns), lists, room, None)
}

/// The points that an odd number of lists cover, with the value of the last list that covers them.
/// Pieces that touch and have the same value are one.
///
/// # Errors
///
/// Any [`Refusal`] but that lists are not two or a combiner unknown.
///
/// ```
/// use guineatwirl::{LentLists, PieceColumns, lent};
///
/// let lists =
///     LentLists { starts: &[1_i64, 5], ends: &[5, 9], values: &[100, 20], counts: &[1, 1] };
/// let mut columns =
///     PieceColumns { starts: &mut [0; 4], ends: &mut [0; 4], values: &mut [0; 4] };
/// let written = lent::multiway_symmetric_difference(lists, &mut columns)?;
/// assert_eq!(columns.starts[..written], [1, 6]);
/// assert_eq!(columns.values[..written], [100, 20]);
/// # Ok::<(), guineatwirl::Refusal>(())
/// ```
pub fn multiway_symmetric_difference<P: Point>(
    lists: LentLists<'_, P>,
    columns: &mut PieceColumns<'_, P>,
) -> Result<usize, Refusal> {
    let room = columns.room();
    told(P::multiway_symmetric_difference(lists, columns), lists, room, None)
}

/// The price at a point of pieces in columns, or none where nothing is on sale there: whatever a
/// many-way join or a selection wrote, what its rule says of the lists at that point.
///
/// It is found by halving, and from 16 pieces on by counting at the end. Where the starts do not
/// ascend, the search goes on all the same, and the price is that of the piece where it ends, or
/// none where that piece does not have the point.
///
/// ```
/// use guineatwirl::{LentPieces, lent};
///
/// let pieces = LentPieces { starts: &[1_i64, 6], ends: &[4, 9], values: &[100, 20] };
/// assert_eq!(lent::price_at(pieces, 6), Some(20));
/// assert_eq!(lent::price_at(pieces, 5), None);
/// assert_eq!(lent::price_at(pieces, i64::MAX), None);
/// ```
#[must_use]
pub fn price_at<P: Point>(pieces: LentPieces<'_, P>, point: P) -> Option<i64> {
    P::price_at(pieces, point)
}

/// The prices at some points, as [`price_at`] gives them, and how many: a row for each, with 0 for
/// a price that there is none of.
///
/// # Errors
///
/// [`Refusal::NoRoom`], where a column is shorter than the points.
///
/// ```
/// use guineatwirl::{LentPieces, PriceColumns, Refusal, lent};
///
/// let pieces = LentPieces { starts: &[1_u32, 6], ends: &[4, 9], values: &[100, 20] };
/// let mut columns = PriceColumns { values: &mut [0; 3], presences: &mut [0; 3] };
/// assert_eq!(lent::prices_at(pieces, &[9, 5, 1], &mut columns), Ok(3));
/// assert_eq!(*columns.values, [20, 0, 100]);
///
/// let refused = lent::prices_at(pieces, &[9; 4], &mut columns);
/// assert_eq!(refused, Err(Refusal::NoRoom { needed: 4, room: 3 }));
/// ```
pub fn prices_at<P: Point>(
    pieces: LentPieces<'_, P>,
    points: &[P],
    columns: &mut PriceColumns<'_>,
) -> Result<usize, Refusal> {
    let (room, needed) = (columns.room(), points.len());
    match P::prices_at(pieces, points, columns) {
        Answer { code: 0, number } if number == needed as u64 => Ok(needed),
        Answer { code: 8, number } if number == needed as u64 => {
            Err(Refusal::NoRoom { needed, room })
        }
        Answer { code, number } => Err(Refusal::Unforeseen { code, number }),
    }
}

/// How many pieces were written, which there was room for, or why none.
fn told<P: Point>(
    answer: Answer,
    lists: LentLists<'_, P>,
    room: usize,
    combiner: Option<u8>,
) -> Result<usize, Refusal> {
    match usize::try_from(answer.number) {
        Ok(written) if answer.code == 0 && written <= room => Ok(written),
        _ => Err(Refusal::of(answer, lists, room, combiner)),
    }
}
