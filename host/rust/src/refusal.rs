//! Why a call is refused, and where the range stands that is at fault.

use core::fmt::{self, Display};

use crate::ffi::Answer;
use crate::{Combiner, LentLists, MOST_LISTS, MOST_RANGES, Point};

/// Where a range stands in a set of lists. Everything is counted from 0.
///
/// ```
/// use guineatwirl::Place;
///
/// let place = Place { list: 2, range: 0, index: 5 };
/// assert_eq!(place.to_string(), "range 0 of list 2 (counted from 0)");
/// ```
#[derive(Clone, Copy, Debug, PartialEq, Eq, Hash)]
pub struct Place {
    /// The list that has the range. The left list of a two-way join is 0, the right one 1.
    pub list: usize,
    /// The range in its list.
    pub range: usize,
    /// The range among those of all lists, laid end to end.
    pub index: usize,
}

impl Display for Place {
    fn fmt(&self, out: &mut fmt::Formatter<'_>) -> fmt::Result {
        write!(out, "range {} of list {} (counted from 0)", self.range, self.list)
    }
}

/// Why the library refused a call. A call that is refused writes nothing.
///
/// Where several things are wrong, the refusal tells the first of this order: lists too many, not
/// two lists, uneven columns, ranges too many, the combiner unknown, the first faulty range, no
/// room.
///
/// ```
/// use guineatwirl::{Combiner, Place, Refusal, Tariff, multiway_full_join};
///
/// // In the second list, the second range takes seat 100, which the first has already.
/// let fees = [Tariff::new(1_u32..=180, 250)];
/// let typed = [Tariff::new(1_u32..=100, 4500), Tariff::new(100..=180, 3000)];
/// let refusal = multiway_full_join(Combiner::Sum, &[&fees[..], &typed]).unwrap_err();
///
/// let place = Place { list: 1, range: 1, index: 2 };
/// assert_eq!(refusal, Refusal::OverlappingRange(place));
/// assert_eq!(
///     refusal.to_string(),
///     "range 1 of list 1 (counted from 0) does not start beyond the end of the range before it"
/// );
/// assert_eq!((refusal.code(), refusal.number()), (6, 2));
/// ```
#[derive(Clone, Copy, Debug, PartialEq, Eq, Hash)]
#[non_exhaustive]
pub enum Refusal {
    /// There are more than [`MOST_LISTS`] lists. Code 1.
    TooManyLists {
        /// How many lists there are.
        lists: usize,
    },
    /// A two-way join was given other than two lists. Code 2.
    NotTwoLists {
        /// How many lists there are.
        lists: usize,
    },
    /// The lists have more than [`MOST_RANGES`] ranges in all. Code 3.
    TooManyRanges {
        /// How many ranges there are.
        ranges: usize,
    },
    /// The lent columns differ in length, or the counts do not add up to it. Code 4.
    UnevenColumns {
        /// The length of the column of starts.
        starts: usize,
        /// The length of the column of ends.
        ends: usize,
        /// The length of the column of values.
        values: usize,
        /// What the counts add up to.
        counted: u64,
    },
    /// A range starts beyond its end. Code 5.
    BackwardRange(Place),
    /// A range does not start beyond the end of the one before it in its list. Code 6.
    OverlappingRange(Place),
    /// A many-way join was given a number that no [`Combiner`] has. Code 7.
    UnknownCombiner {
        /// The number that was given.
        combiner: u8,
    },
    /// The output columns have no room for all pieces, events or prices. Code 8.
    NoRoom {
        /// How many pieces, events or prices there are: each takes a row of the columns.
        needed: usize,
        /// For how many there is room.
        room: usize,
    },
    /// The library answered what this package does not know: they are of different versions.
    Unforeseen {
        /// The code as it was answered.
        code: u8,
        /// The number as it was answered.
        number: u64,
    },
}

impl Refusal {
    /// The code that the C function answered.
    ///
    /// ```
    /// assert_eq!(guineatwirl::Refusal::NoRoom { needed: 5, room: 3 }.code(), 8);
    /// ```
    #[must_use]
    pub const fn code(&self) -> u8 {
        match *self {
            Self::TooManyLists { .. } => 1,
            Self::NotTwoLists { .. } => 2,
            Self::TooManyRanges { .. } => 3,
            Self::UnevenColumns { .. } => 4,
            Self::BackwardRange(_) => 5,
            Self::OverlappingRange(_) => 6,
            Self::UnknownCombiner { .. } => 7,
            Self::NoRoom { .. } => 8,
            Self::Unforeseen { code, .. } => code,
        }
    }

    /// The number that the C function answered with the code: the range's index for a faulty
    /// range, the rows needed where there is no room for them, 0 for the other refusals.
    ///
    /// ```
    /// assert_eq!(guineatwirl::Refusal::NoRoom { needed: 5, room: 3 }.number(), 5);
    /// ```
    #[must_use]
    pub const fn number(&self) -> u64 {
        match *self {
            Self::BackwardRange(place) | Self::OverlappingRange(place) => place.index as u64,
            Self::NoRoom { needed, .. } => needed as u64,
            Self::Unforeseen { number, .. } => number,
            _ => 0,
        }
    }

    /// What was answered other than that all went well, of a call with these lists, with room for
    /// so many pieces, and with this combiner where it is a many-way join. Its code and number are
    /// those of the answer.
    #[cold]
    pub(crate) fn of<P: Point>(
        answer: Answer,
        lists: LentLists<'_, P>,
        room: usize,
        combiner: Option<u8>,
    ) -> Self {
        let Answer { code, number } = answer;
        Self::expected(answer, lists, room, combiner)
            .filter(|refusal| (refusal.code(), refusal.number()) == (code, number))
            .unwrap_or(Self::Unforeseen { code, number })
    }

    /// What was answered other than that all is well, of one list with so many ranges.
    #[cold]
    pub(crate) fn of_list(answer: Answer, ranges: usize) -> Self {
        let Answer { code, number } = answer;
        let range = usize::try_from(number).ok().filter(|&range| range < ranges);
        let place = range.map(|range| Place { list: 0, range, index: range });
        match (code, place) {
            (5, Some(place)) => Self::BackwardRange(place),
            (6, Some(place)) => Self::OverlappingRange(place),
            _ => Self::Unforeseen { code, number },
        }
    }

    /// The refusal of that code, if there is one.
    fn expected<P: Point>(
        answer: Answer,
        lists: LentLists<'_, P>,
        room: usize,
        combiner: Option<u8>,
    ) -> Option<Self> {
        let LentLists { starts, ends, values, counts } = lists;
        let number = usize::try_from(answer.number).ok()?;
        Some(match answer.code {
            1 => Self::TooManyLists { lists: counts.len() },
            2 => Self::NotTwoLists { lists: counts.len() },
            3 => Self::TooManyRanges { ranges: starts.len() },
            4 => Self::UnevenColumns {
                starts: starts.len(),
                ends: ends.len(),
                values: values.len(),
                counted: counts.iter().map(|&count| u64::from(count)).sum(),
            },
            5 => Self::BackwardRange(lists.place(number)?),
            6 => Self::OverlappingRange(lists.place(number)?),
            7 => Self::UnknownCombiner { combiner: combiner? },
            8 => Self::NoRoom { needed: number, room },
            _ => return None,
        })
    }
}

impl core::error::Error for Refusal {}

impl Display for Refusal {
    fn fmt(&self, out: &mut fmt::Formatter<'_>) -> fmt::Result {
        match self {
            Self::TooManyLists { lists } => {
                write!(out, "{lists} lists are more than {MOST_LISTS}, the most that can be joined")
            }
            Self::NotTwoLists { lists } => {
                write!(out, "a two-way join takes 2 lists and was given {lists}")
            }
            Self::TooManyRanges { ranges } => {
                write!(
                    out,
                    "{ranges} ranges are more than {MOST_RANGES}, the most that lists have in all"
                )
            }
            Self::UnevenColumns { starts, ends, values, counted } => write!(
                out,
                "the columns do not go together: {starts} starts, {ends} ends, {values} values, \
                 and counts that add up to {counted}"
            ),
            Self::BackwardRange(place) => write!(out, "{place} starts beyond its end"),
            Self::OverlappingRange(place) => {
                write!(out, "{place} does not start beyond the end of the range before it")
            }
            Self::UnknownCombiner { combiner } => {
                let last = Combiner::ALL.len();
                write!(out, "there is no combiner {combiner}: they have the numbers 1 to {last}")
            }
            Self::NoRoom { needed, room } => {
                write!(out, "{needed} rows are needed and the columns have room for {room}")
            }
            Self::Unforeseen { code, number } => write!(
                out,
                "the library answered code {code} with number {number}, which this package does \
                 not know: they are of different versions"
            ),
        }
    }
}

#[cfg(test)]
mod tests {
    use super::*;

    const LISTS: LentLists<'_, u32> = LentLists {
        starts: &[1, 3, 1],
        ends: &[2, 4, 2],
        values: &[5, 6, 7],
        counts: &[0, 2, 0, 1],
    };

    fn refusal(code: u8, number: u64, combiner: Option<u8>) -> Refusal {
        Refusal::of(Answer { code, number }, LISTS, 4, combiner)
    }

    #[test]
    fn keeps_every_answer() {
        for code in 0..=u8::MAX {
            for number in [0, 1, 2, 3, 5000, u64::MAX] {
                for combiner in [None, Some(6)] {
                    let refusal = refusal(code, number, combiner);
                    assert_eq!((refusal.code(), refusal.number()), (code, number));
                }
            }
        }
    }

    #[test]
    fn keeps_every_answer_of_one_list() {
        for code in 0..=u8::MAX {
            for number in [0, 1, 2, 3, u64::MAX] {
                let refusal = Refusal::of_list(Answer { code, number }, 3);
                assert_eq!((refusal.code(), refusal.number()), (code, number));
                let faulty =
                    matches!(refusal, Refusal::BackwardRange(_) | Refusal::OverlappingRange(_));
                assert_eq!(faulty, matches!(code, 5 | 6) && number < 3);
            }
        }
    }

    #[test]
    fn tells_the_list_and_the_range_past_empty_lists() {
        let place = |list, range, index| Refusal::BackwardRange(Place { list, range, index });
        assert_eq!(refusal(5, 0, None), place(1, 0, 0));
        assert_eq!(refusal(5, 1, None), place(1, 1, 1));
        assert_eq!(refusal(5, 2, None), place(3, 0, 2));
    }

    #[test]
    fn tells_an_answer_that_no_call_can_have() {
        // A place beyond the ranges, a number where none is due, a combiner that was never asked
        // for, more pieces than there is room for, a code that does not exist.
        for (code, number) in [(5, 3), (1, 1), (7, 0), (0, 5), (9, 0)] {
            assert_eq!(refusal(code, number, None), Refusal::Unforeseen { code, number });
        }
    }
}
