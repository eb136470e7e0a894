//! Pieces held to be read at points.

use crate::{LentPieces, Piece, Point, PriceColumns, Refusal, lent};

/// The pieces of a many-way join or of a selection, held in columns to be read at many points.
///
/// ```
/// use guineatwirl::{Prices, Tariff, multiway_union};
///
/// // The prices of the house over those of its group.
/// let group = [Tariff::new(1_u32..=100, 4500)];
/// let house = [Tariff::new(21..=30, 4200)];
/// let prices = Prices::from_iter(multiway_union(&[group, house])?);
/// assert_eq!(prices.price_at(20), Some(4500));
/// assert_eq!(prices.price_at(21), Some(4200));
/// assert_eq!(prices.price_at(101), None);
/// # Ok::<(), guineatwirl::Refusal>(())
/// ```
///
/// Any pieces can be held. A reading searches the starts: of pieces that ascend, as those of
/// an operation do, the one that has the point.
#[derive(Clone, Debug, PartialEq, Eq)]
pub struct Prices<P> {
    starts: Vec<P>,
    ends: Vec<P>,
    values: Vec<i64>,
}

impl<P: Point> Prices<P> {
    /// The price at a point, or none where nothing is on sale.
    #[must_use]
    pub fn price_at(&self, point: P) -> Option<i64> {
        lent::price_at(self.lend(), point)
    }

    /// The price at each of some points.
    ///
    /// # Errors
    ///
    /// [`Refusal::Unforeseen`], where the library is of another version, and no other.
    ///
    /// ```
    /// use guineatwirl::{Piece, Prices};
    ///
    /// let prices = Prices::from_iter([Piece { start: 1_i64, end: 5, value: -100 }]);
    /// assert_eq!(prices.prices_at(&[5, 6])?, [Some(-100), None]);
    /// # Ok::<(), guineatwirl::Refusal>(())
    /// ```
    pub fn prices_at(&self, points: &[P]) -> Result<Vec<Option<i64>>, Refusal> {
        let mut columns = PriceColumns {
            values: &mut vec![0; points.len()],
            presences: &mut vec![0; points.len()],
        };
        let written = lent::prices_at(self.lend(), points, &mut columns)?;
        Ok(columns.prices(written).collect())
    }

    /// The columns, to lend to the functions of [`lent`].
    #[must_use]
    pub fn lend(&self) -> LentPieces<'_, P> {
        let Self { starts, ends, values } = self;
        LentPieces { starts, ends, values }
    }
}

impl<P> FromIterator<Piece<P>> for Prices<P> {
    fn from_iter<I: IntoIterator<Item = Piece<P>>>(pieces: I) -> Self {
        let mut held = Self { starts: Vec::new(), ends: Vec::new(), values: Vec::new() };
        for Piece { start, end, value } in pieces {
            held.starts.push(start);
            held.ends.push(end);
            held.values.push(value);
        }
        held
    }
}
