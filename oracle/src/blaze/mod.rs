//! Six files of range-set-blaze 0.8.0, byte for byte (`SHA256SUMS`), with the crate's licence.

mod full_join_iter_map;
mod inner_join_iter_map;
mod left_join_iter_map;
mod multiway_join_iter_map;
mod multiway_select_map;
mod multiway_sweep;

pub use full_join_iter_map::FullJoinMap;
pub use inner_join_iter_map::InnerJoinMap;
pub use left_join_iter_map::LeftJoinMap;
pub use multiway_join_iter_map::{MultiwayFullJoinMap, MultiwayInnerJoinMap};
pub use multiway_select_map::{
    MultiwaySymmetricDifferenceMap, MultiwayUnionMap, SymmetricDifferenceMap, UnionMap,
};
pub use multiway_sweep::{MultiwaySweep, SweepEvent};
