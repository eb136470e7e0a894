//! The oracle of the joins: the crate's own iterators, an independent reading of the rules and of
//! the tariff file, the proved library, and the cases on which they are held against each other.

extern crate alloc;

#[rustfmt::skip]
mod blaze;
mod scaffold;

pub mod answers;
pub mod bare;
pub mod blaze_side;
pub mod boundary;
pub mod call;
pub mod case;
pub mod compare;
pub mod coverage;
pub mod faults;
pub mod file;
pub mod generator;
pub mod held;
pub mod one_list;
pub mod price_bench;
pub mod random;
pub mod rattle_side;
pub mod reading;
pub mod readings;
pub mod small_lists;
pub mod text;
pub mod timing;

// The names that the unchanged files take from their crate's root.
pub mod map {
    pub use crate::scaffold::ValueCarrier;
}
pub use blaze::{MultiwaySweep, SweepEvent};
pub use scaffold::{Integer, Owned, SortedDisjointMap, SortedStartsMap};
