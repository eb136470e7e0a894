//! The operations from lists of tariffs to vectors of pieces.

use crate::ffi::Answer;
use crate::{
    Combiner, Event, EventColumns, LentLists, Lists, Pair, PairColumns, Piece, PieceColumns, Point,
    Refusal, Tariff, lent,
};

/// Checks one list as it is typed, before any join: whether no range starts beyond its end, and
/// each starts beyond the end of the one before it. Nothing is copied. The list may have any
/// length; one of more than [`MOST_RANGES`](crate::MOST_RANGES) ranges cannot be joined.
///
/// # Errors
///
/// [`Refusal::BackwardRange`] or [`Refusal::OverlappingRange`], of the first faulty range. The list
/// is list 0 there.
///
/// ```
/// use guineatwirl::{Place, Refusal, Tariff, check};
///
/// let mut typed = [Tariff::new(1_u32..=100, 4500), Tariff::new(101..=180, 3000)];
/// assert_eq!(check(&typed), Ok(()));
///
/// // A slip: seat 100 is in both ranges.
/// typed[1].start = 100;
/// let place = Place { list: 0, range: 1, index: 1 };
/// assert_eq!(check(&typed), Err(Refusal::OverlappingRange(place)));
/// ```
pub fn check<P: Point>(list: &[Tariff<P>]) -> Result<(), Refusal> {
    match P::check_list(list) {
        Answer { code: 0, number: 0 } => Ok(()),
        answer => Err(Refusal::of_list(answer, list.len())),
    }
}

/// Lists the events: every start and every end of a range, ordered by point. At one point all
/// starts come before all ends, and in each the lists come in order.
///
/// # Errors
///
/// The [`Refusal`] that is due: too many lists or ranges, or a faulty range.
///
/// ```
/// use guineatwirl::{Event, Tariff, list_events};
///
/// let events = list_events(&[[Tariff::new(1_u32..=5, 100)], [Tariff::new(5..=9, 20)]])?;
/// assert_eq!(events[1], Event::Start { point: 5, list: 1, value: 20 });
/// assert_eq!(events[2], Event::End { point: 5, list: 0 });
/// # Ok::<(), guineatwirl::Refusal>(())
/// ```
pub fn list_events<P: Point, L: AsRef<[Tariff<P>]>>(lists: &[L]) -> Result<Vec<Event<P>>, Refusal> {
    let lists = laid(lists);
    let room = lists.lend().enough_room();
    let mut columns = EventColumns {
        kinds: &mut vec![0; room],
        points: &mut vec![P::LEAST; room],
        lists: &mut vec![0; room],
        values: &mut vec![0; room],
    };
    let written = lent::list_events(lists.lend(), &mut columns)?;
    Ok(columns.events(written).collect())
}

/// One piece for every left range and right range that share a point: the points that they share.
///
/// # Errors
///
/// The [`Refusal`] that is due: too many ranges, or a faulty range. The left list is list 0 there.
///
/// ```
/// use guineatwirl::{Pair, Tariff, two_way_inner_join};
///
/// let left = [Tariff::new(1_u32..=10, 100)];
/// let right = [Tariff::new(3..=4, 7), Tariff::new(5..=6, 7)];
/// let pairs = two_way_inner_join(&left, &right)?;
/// assert_eq!(pairs.len(), 2);
/// assert_eq!(pairs[0], Pair { start: 3, end: 4, left: Some(100), right: Some(7) });
/// # Ok::<(), guineatwirl::Refusal>(())
/// ```
pub fn two_way_inner_join<P: Point>(
    left: &[Tariff<P>],
    right: &[Tariff<P>],
) -> Result<Vec<Pair<P>>, Refusal> {
    pairs(left, right, lent::two_way_inner_join)
}

/// The pieces of [`two_way_full_join`] that the left list covers.
///
/// # Errors
///
/// The [`Refusal`] that is due: too many ranges, or a faulty range. The left list is list 0 there.
///
/// ```
/// use guineatwirl::{Pair, Tariff, two_way_left_join};
///
/// let left = [Tariff::new(1_u32..=10, 100)];
/// let right = [Tariff::new(3..=4, 7), Tariff::new(5..=6, 7)];
/// let pairs = two_way_left_join(&left, &right)?;
/// assert_eq!(pairs.len(), 4);
/// assert_eq!(pairs[3], Pair { start: 7, end: 10, left: Some(100), right: None });
/// # Ok::<(), guineatwirl::Refusal>(())
/// ```
pub fn two_way_left_join<P: Point>(
    left: &[Tariff<P>],
    right: &[Tariff<P>],
) -> Result<Vec<Pair<P>>, Refusal> {
    pairs(left, right, lent::two_way_left_join)
}

/// The points that either list covers, cut where the range that covers them, left or right,
/// changes.
///
/// # Errors
///
/// The [`Refusal`] that is due: too many ranges, or a faulty range. The left list is list 0 there.
///
/// ```
/// use guineatwirl::{Pair, Tariff, two_way_full_join};
///
/// let pairs = two_way_full_join(&[Tariff::new(1_u32..=5, 100)], &[Tariff::new(5..=9, 20)])?;
/// assert_eq!(pairs.len(), 3);
/// assert_eq!(pairs[2], Pair { start: 6, end: 9, left: None, right: Some(20) });
/// # Ok::<(), guineatwirl::Refusal>(())
/// ```
pub fn two_way_full_join<P: Point>(
    left: &[Tariff<P>],
    right: &[Tariff<P>],
) -> Result<Vec<Pair<P>>, Refusal> {
    pairs(left, right, lent::two_way_full_join)
}

/// The points that every list covers, with what the combiner makes of the values there. Pieces that
/// touch and have the same value are one. No lists at all cover every point.
///
/// # Errors
///
/// The [`Refusal`] that is due: too many lists or ranges, or a faulty range.
///
/// ```
/// use guineatwirl::{Combiner, Piece, Point, Tariff, multiway_inner_join};
///
/// let left = [Tariff::new(1_u32..=10, 100)];
/// let right = [Tariff::new(3..=4, 7), Tariff::new(5..=6, 7)];
/// let pieces = multiway_inner_join(Combiner::Sum, &[&left[..], &right])?;
/// assert_eq!(pieces, [Piece { start: 3, end: 6, value: 107 }]);
///
/// let none: [&[Tariff<i64>]; 0] = [];
/// let pieces = multiway_inner_join(Combiner::Sum, &none)?;
/// assert_eq!(pieces, [Piece { start: i64::LEAST, end: i64::GREATEST, value: 0 }]);
/// # Ok::<(), guineatwirl::Refusal>(())
/// ```
pub fn multiway_inner_join<P: Point, L: AsRef<[Tariff<P>]>>(
    combiner: Combiner,
    lists: &[L],
) -> Result<Vec<Piece<P>>, Refusal> {
    pieces(lists, |lists, columns| lent::multiway_inner_join(combiner, lists, columns))
}

/// The points that any list covers, with what the combiner makes of the values there. Pieces that
/// touch and have the same value are one.
///
/// # Errors
///
/// The [`Refusal`] that is due: too many lists or ranges, or a faulty range.
///
/// ```
/// use guineatwirl::{Combiner, Piece, Tariff, multiway_full_join};
///
/// let lists = vec![vec![Tariff::new(1_i64..=2, -3)], vec![Tariff::new(1..=2, 0)]];
/// let pieces = multiway_full_join(Combiner::Mean, &lists)?;
/// assert_eq!(pieces, [Piece { start: 1, end: 2, value: -1 }]);
/// # Ok::<(), guineatwirl::Refusal>(())
/// ```
pub fn multiway_full_join<P: Point, L: AsRef<[Tariff<P>]>>(
    combiner: Combiner,
    lists: &[L],
) -> Result<Vec<Piece<P>>, Refusal> {
    pieces(lists, |lists, columns| lent::multiway_full_join(combiner, lists, columns))
}

/// The points that any list covers, with the value of the last list that covers them. Pieces that
/// touch and have the same value are one.
///
/// # Errors
///
/// The [`Refusal`] that is due: too many lists or ranges, or a faulty range.
///
/// ```
/// use guineatwirl::{Piece, Tariff, multiway_union};
///
/// // The prices of the house over those of its group.
/// let group = [Tariff::new(1_u32..=100, 4500)];
/// let house = [Tariff::new(21..=100, 4200)];
/// let prices = multiway_union(&[group, house])?;
/// assert_eq!(prices[0], Piece { start: 1, end: 20, value: 4500 });
/// assert_eq!(prices[1], Piece { start: 21, end: 100, value: 4200 });
/// # Ok::<(), guineatwirl::Refusal>(())
/// ```
pub fn multiway_union<P: Point, L: AsRef<[Tariff<P>]>>(
    lists: &[L],
) -> Result<Vec<Piece<P>>, Refusal> {
    pieces(lists, lent::multiway_union)
}

/// The points that an odd number of lists cover, with the value of the last list that covers them.
/// Pieces that touch and have the same value are one.
///
/// # Errors
///
/// The [`Refusal`] that is due: too many lists or ranges, or a faulty range.
///
/// ```
/// use guineatwirl::{Piece, Tariff, multiway_symmetric_difference};
///
/// let lists = [[Tariff::new(1_u32..=5, 100)], [Tariff::new(5..=9, 20)]];
/// let pieces = multiway_symmetric_difference(&lists)?;
/// assert_eq!(pieces[0], Piece { start: 1, end: 4, value: 100 });
/// assert_eq!(pieces[1], Piece { start: 6, end: 9, value: 20 });
/// # Ok::<(), guineatwirl::Refusal>(())
/// ```
pub fn multiway_symmetric_difference<P: Point, L: AsRef<[Tariff<P>]>>(
    lists: &[L],
) -> Result<Vec<Piece<P>>, Refusal> {
    pieces(lists, lent::multiway_symmetric_difference)
}

fn laid<P: Point, L: AsRef<[Tariff<P>]>>(lists: &[L]) -> Lists<P> {
    lists.iter().map(|list| list.as_ref().iter().copied()).collect()
}

/// What a two-way join over lent columns writes.
fn pairs<P: Point>(
    left: &[Tariff<P>],
    right: &[Tariff<P>],
    join: impl FnOnce(LentLists<'_, P>, &mut PairColumns<'_, P>) -> Result<usize, Refusal>,
) -> Result<Vec<Pair<P>>, Refusal> {
    let lists = laid(&[left, right]);
    let room = lists.lend().enough_room();
    let mut columns = PairColumns {
        starts: &mut vec![P::LEAST; room],
        ends: &mut vec![P::LEAST; room],
        lefts: &mut vec![0; room],
        rights: &mut vec![0; room],
        presences: &mut vec![0; room],
    };
    let written = join(lists.lend(), &mut columns)?;
    Ok(columns.pieces(written).collect())
}

/// What a many-way join or a selection over lent columns writes.
fn pieces<P: Point, L: AsRef<[Tariff<P>]>>(
    lists: &[L],
    operation: impl FnOnce(LentLists<'_, P>, &mut PieceColumns<'_, P>) -> Result<usize, Refusal>,
) -> Result<Vec<Piece<P>>, Refusal> {
    let lists = laid(lists);
    let room = lists.lend().enough_room();
    let mut columns = PieceColumns {
        starts: &mut vec![P::LEAST; room],
        ends: &mut vec![P::LEAST; room],
        values: &mut vec![0; room],
    };
    let written = operation(lists.lend(), &mut columns)?;
    Ok(columns.pieces(written).collect())
}
