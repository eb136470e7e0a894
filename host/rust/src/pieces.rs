//! What operations write, as values: pieces, pairs and events.

/// A piece of a many-way join or of a selection: a range, and the value at each of its points.
///
/// ```
/// use guineatwirl::{Combiner, Piece, Tariff, multiway_full_join};
///
/// let lists = [[Tariff::new(1_u32..=5, 100)], [Tariff::new(6..=9, 100)]];
/// let pieces = multiway_full_join(Combiner::Sum, &lists)?;
/// assert_eq!(pieces, [Piece { start: 1, end: 9, value: 100 }]);
/// # Ok::<(), guineatwirl::Refusal>(())
/// ```
#[derive(Clone, Copy, Debug, PartialEq, Eq, Hash)]
pub struct Piece<P> {
    /// The first point of the piece.
    pub start: P,
    /// The last point of the piece.
    pub end: P,
    /// The value at each of its points, in whole pence or, for
    /// [`NumberPresent`](crate::Combiner::NumberPresent), in lists.
    pub value: i64,
}

/// A piece of a two-way join: a range, and what each of the two lists has at each of its points.
///
/// ```
/// use guineatwirl::{Pair, Tariff, two_way_full_join};
///
/// let pairs = two_way_full_join(&[Tariff::new(1_u32..=5, 100)], &[Tariff::new(5..=9, 20)])?;
/// assert_eq!(pairs[0], Pair { start: 1, end: 4, left: Some(100), right: None });
/// # Ok::<(), guineatwirl::Refusal>(())
/// ```
#[derive(Clone, Copy, Debug, PartialEq, Eq, Hash)]
pub struct Pair<P> {
    /// The first point of the piece.
    pub start: P,
    /// The last point of the piece.
    pub end: P,
    /// What the left list has there, in whole pence.
    pub left: Option<i32>,
    /// What the right list has there, in whole pence.
    pub right: Option<i32>,
}

/// An event of the listing: a range of a list starts or ends. Lists are counted from 0.
///
/// ```
/// use guineatwirl::{Event, Tariff, list_events};
///
/// let events = list_events(&[[Tariff::new(1_u32..=5, 100)]])?;
/// let start = Event::Start { point: 1, list: 0, value: 100 };
/// assert_eq!(events, [start, Event::End { point: 5, list: 0 }]);
/// # Ok::<(), guineatwirl::Refusal>(())
/// ```
#[derive(Clone, Copy, Debug, PartialEq, Eq, Hash)]
pub enum Event<P> {
    /// A range starts.
    Start {
        /// The first point of the range.
        point: P,
        /// The list that has the range.
        list: usize,
        /// The value of the range, in whole pence.
        value: i32,
    },
    /// A range ends.
    End {
        /// The last point of the range.
        point: P,
        /// The list that has the range.
        list: usize,
    },
}
