//! The combiners of many-way joins.

/// What a many-way join makes of the values that the lists have at a point.
///
/// ```
/// use guineatwirl::Combiner;
///
/// assert_eq!(Combiner::Mean.number(), 5);
/// assert_eq!(Combiner::from_number(2), Some(Combiner::Largest));
/// assert_eq!(Combiner::from_number(6), None);
/// ```
#[derive(Clone, Copy, Debug, PartialEq, Eq, Hash)]
#[non_exhaustive]
#[repr(u8)]
pub enum Combiner {
    /// The sum of the values.
    Sum = 1,
    /// The largest value.
    Largest = 2,
    /// The smallest value.
    Smallest = 3,
    /// How many lists have a value.
    NumberPresent = 4,
    /// The mean of the values, cut toward zero.
    Mean = 5,
}

impl Combiner {
    /// Every combiner, by number.
    pub const ALL: [Self; 5] =
        [Self::Sum, Self::Largest, Self::Smallest, Self::NumberPresent, Self::Mean];

    /// The number by which the library knows it.
    #[must_use]
    pub const fn number(self) -> u8 {
        self as u8
    }

    /// The combiner of that number, or `None` where there is none.
    #[must_use]
    pub fn from_number(number: u8) -> Option<Self> {
        Self::ALL.into_iter().find(|combiner| combiner.number() == number)
    }
}

impl From<Combiner> for u8 {
    fn from(combiner: Combiner) -> Self {
        combiner.number()
    }
}
