//! A call as the rules have it: lent columns in, an answer and the output columns back.

use core::ops::Range;

use crate::Integer;

pub const MOST_LISTS: usize = 16;
pub const MOST_RANGES: usize = 2048;

/// A point of one of the two widths. Its key is its distance from the least point.
pub trait Point: Integer + Into<i128> + 'static {
    const WIDTH: &'static str;
    const GREATEST_KEY: u64;
    /// The key of the point 0.
    const ZERO_KEY: u64;

    fn from_key(key: u64) -> Self;
    fn key(self) -> u64;

    fn least() -> Self {
        Self::from_key(0)
    }

    fn greatest() -> Self {
        Self::from_key(Self::GREATEST_KEY)
    }

    /// The next point, or none after the greatest.
    fn after(self) -> Option<Self> {
        (self.key() < Self::GREATEST_KEY).then(|| Self::from_key(self.key() + 1))
    }
}

impl Point for u32 {
    const WIDTH: &'static str = "u32";
    const GREATEST_KEY: u64 = u32::MAX as u64;
    const ZERO_KEY: u64 = 0;

    fn from_key(key: u64) -> Self {
        key as u32
    }

    fn key(self) -> u64 {
        u64::from(self)
    }
}

impl Point for i64 {
    const WIDTH: &'static str = "i64";
    const GREATEST_KEY: u64 = u64::MAX;
    const ZERO_KEY: u64 = 1 << 63;

    fn from_key(key: u64) -> Self {
        (key ^ Self::ZERO_KEY) as i64
    }

    fn key(self) -> u64 {
        self as u64 ^ Self::ZERO_KEY
    }
}

/// An operation; a many-way join holds its combiner's number.
#[derive(Clone, Copy, Debug, PartialEq, Eq, PartialOrd, Ord)]
pub enum Operation {
    Events,
    TwoWayInner,
    TwoWayLeft,
    TwoWayFull,
    Inner(u8),
    Full(u8),
    Union,
    SymmetricDifference,
}

impl Operation {
    /// Every operation, the many-way joins under each known combiner. The two-way ones come last.
    pub const ALL: [Self; 16] = [
        Self::Events,
        Self::Inner(1),
        Self::Inner(2),
        Self::Inner(3),
        Self::Inner(4),
        Self::Inner(5),
        Self::Full(1),
        Self::Full(2),
        Self::Full(3),
        Self::Full(4),
        Self::Full(5),
        Self::Union,
        Self::SymmetricDifference,
        Self::TwoWayInner,
        Self::TwoWayLeft,
        Self::TwoWayFull,
    ];

    /// Those that take any number of lists.
    pub const OF_ANY_LISTS: &'static [Self] = Self::ALL.split_at(13).0;

    pub fn is_two_way(self) -> bool {
        matches!(self, Self::TwoWayInner | Self::TwoWayLeft | Self::TwoWayFull)
    }

    /// The combiner's number, for the many-way joins only.
    pub fn combiner(self) -> Option<u8> {
        match self {
            Self::Inner(combiner) | Self::Full(combiner) => Some(combiner),
            _ => None,
        }
    }

    /// Whether it can refuse a call with this code.
    pub fn can_refuse(self, code: u8) -> bool {
        match code {
            2 => self.is_two_way(),
            7 => self.combiner().is_some(),
            _ => (1..=8).contains(&code),
        }
    }

    /// How many output columns it writes.
    pub fn column_count(self) -> usize {
        match self {
            Self::Events => 4,
            Self::TwoWayInner | Self::TwoWayLeft | Self::TwoWayFull => 5,
            _ => 3,
        }
    }

    /// The same operation with another combiner, where it has one.
    pub fn with_combiner(self, combiner: u8) -> Self {
        match self {
            Self::Inner(_) => Self::Inner(combiner),
            Self::Full(_) => Self::Full(combiner),
            other => other,
        }
    }
}

/// One range of a list with its value.
#[derive(Clone, Copy, Debug, PartialEq, Eq)]
pub struct Tariff<T> {
    pub start: T,
    pub end: T,
    pub value: i32,
}

/// A set of lists as it is lent: three columns over all ranges, and one count per list.
#[derive(Clone, Debug, PartialEq, Eq)]
pub struct Lent<T> {
    pub starts: Vec<T>,
    pub ends: Vec<T>,
    pub values: Vec<i32>,
    pub counts: Vec<u32>,
}

impl<T: Point> Lent<T> {
    /// The lists laid end to end.
    pub fn from_lists(lists: &[Vec<Tariff<T>>]) -> Self {
        Self {
            starts: lists.iter().flatten().map(|tariff| tariff.start).collect(),
            ends: lists.iter().flatten().map(|tariff| tariff.end).collect(),
            values: lists.iter().flatten().map(|tariff| tariff.value).collect(),
            counts: lists.iter().map(|list| list.len() as u32).collect(),
        }
    }

    /// Each list's places in the columns, where the counts add up.
    pub fn list_places(&self) -> Vec<Range<usize>> {
        let mut first = 0;
        let to_places = |&count: &u32| {
            let places = first..first + count as usize;
            first = places.end;
            places
        };
        self.counts.iter().map(to_places).collect()
    }
}

/// A piece of the event listing.
#[derive(Clone, Copy, Debug, PartialEq, Eq)]
pub struct Event<T> {
    pub kind: u8,
    pub point: T,
    pub list: u8,
    pub value: i32,
}

/// A piece of a two-way operation.
#[derive(Clone, Copy, Debug, PartialEq, Eq)]
pub struct Sides<T> {
    pub start: T,
    pub end: T,
    pub left: Option<i32>,
    pub right: Option<i32>,
}

/// A piece of a many-way join or a selection.
#[derive(Clone, Copy, Debug, PartialEq, Eq)]
pub struct Priced<T> {
    pub start: T,
    pub end: T,
    pub value: i64,
}

/// The pieces of one operation, ascending.
#[derive(Clone, Debug, PartialEq, Eq)]
pub enum Pieces<T> {
    Events(Vec<Event<T>>),
    Sides(Vec<Sides<T>>),
    Priced(Vec<Priced<T>>),
}

impl<T> Pieces<T> {
    /// No pieces yet of an operation.
    pub fn of(operation: Operation) -> Self {
        match operation.column_count() {
            4 => Self::Events(Vec::new()),
            5 => Self::Sides(Vec::new()),
            _ => Self::Priced(Vec::new()),
        }
    }

    pub fn count(&self) -> usize {
        match self {
            Self::Events(pieces) => pieces.len(),
            Self::Sides(pieces) => pieces.len(),
            Self::Priced(pieces) => pieces.len(),
        }
    }
}

/// The output columns of one operation. They may differ in length.
#[derive(Clone, Debug, PartialEq, Eq)]
pub enum Columns<T> {
    Events { kinds: Vec<u8>, points: Vec<T>, lists: Vec<u8>, values: Vec<i32> },
    Sides { starts: Vec<T>, ends: Vec<T>, lefts: Vec<i32>, rights: Vec<i32>, presences: Vec<u8> },
    Priced { starts: Vec<T>, ends: Vec<T>, values: Vec<i64> },
}

impl<T> Columns<T> {
    /// The length of the shortest column.
    pub fn room(&self) -> usize {
        match self {
            Self::Events { kinds, points, lists, values } => {
                kinds.len().min(points.len()).min(lists.len()).min(values.len())
            }
            Self::Sides { starts, ends, lefts, rights, presences } => {
                let points = starts.len().min(ends.len());
                points.min(lefts.len()).min(rights.len()).min(presences.len())
            }
            Self::Priced { starts, ends, values } => starts.len().min(ends.len()).min(values.len()),
        }
    }
}

#[derive(Clone, Debug, PartialEq, Eq)]
pub struct Call<T> {
    pub operation: Operation,
    pub lent: Lent<T>,
    pub columns: Columns<T>,
}

#[derive(Clone, Copy, Debug, PartialEq, Eq)]
pub struct Answer {
    pub code: u8,
    pub number: u64,
}

impl Answer {
    pub fn new(code: u8, number: usize) -> Self {
        Self { code, number: number as u64 }
    }
}

/// What a call leaves behind: its answer, and every output column whole.
#[derive(Clone, Debug, PartialEq, Eq)]
pub struct Outcome<T> {
    pub answer: Answer,
    pub columns: Columns<T>,
}
