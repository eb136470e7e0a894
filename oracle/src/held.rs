//! Pieces held in columns, and their prices as ordinary Rust reads them.

use guineatwirl::LentPieces;

use crate::call::Point;

pub struct Held<T> {
    pub starts: Vec<T>,
    pub ends: Vec<T>,
    pub values: Vec<i64>,
}

impl<T: Point> Held<T> {
    pub fn lend(&self) -> LentPieces<'_, T> {
        let Self { starts, ends, values } = self;
        LentPieces { starts, ends, values }
    }

    /// The price at a point of pieces that ascend.
    #[inline]
    pub fn partition_point(&self, point: T) -> Option<i64> {
        let place = self.starts.partition_point(|&start| start <= point).checked_sub(1)?;
        (point <= self.ends[place]).then(|| self.values[place])
    }
}
