//! Proved joins of tariff lists.
//!
//! A tariff list says which price holds on which inclusive range of seats (`u32`) or instants
//! (`i64`), in whole pence. This package calls the proved library, which joins such lists and
//! selects among them, through its C functions, and makes them safe to call: slices in, pieces or
//! a [`Refusal`] out.
//!
#![doc = "```"]
#![doc = include_str!("../examples/prices.rs")]
#![doc = "```"]
//!
//! The functions at the root take lists of [`Tariff`] and make a vector of pieces. Those of the
//! same names in [`lent`] read and write columns that the host holds, and allocate nothing.
//!
//! | operation | points | value |
//! |---|---|---|
//! | [`two_way_inner_join`] | in both lists | those of both lists |
//! | [`two_way_left_join`] | in the left list | those of both lists |
//! | [`two_way_full_join`] | in either list | those of both lists |
//! | [`multiway_inner_join`] | in every list | what a [`Combiner`] makes of those there |
//! | [`multiway_full_join`] | in any list | what a [`Combiner`] makes of those there |
//! | [`multiway_union`] | in any list | that of the last list there |
//! | [`multiway_symmetric_difference`] | in an odd number of lists | that of the last list there |
//! | [`list_events`] | where a range starts or ends | that of the range |
//!
//! What a join or a selection wrote is read by [`lent::price_at`] at a point and by
//! [`lent::prices_at`] at many: at each, the price is what the operation's rule says of the lists
//! there. [`Prices`] holds the pieces of a vector to be read so.
//!
//! [`join_file`] does all of it for a tariff file of instants: bytes in, the printed text out. The
//! program `house` of this package makes such files of lists that are typed as text, joins them and
//! draws them.
//!
//! A list is well formed where no range starts beyond its end, and each starts beyond the end of
//! the one before it; [`check`] tells of one list as it is typed. Ranges may touch. Lists and the
//! ranges in them are counted from 0. No call panics: whatever is wrong with what is lent comes
//! back as a [`Refusal`].
//!
//! To link the library, `GUINEATWIRL_LIBRARY` names the folder of its archive, `libguineatwirl.a`,
//! when the package is built. `tools/host_library` builds it, in `target/host`.

#![deny(missing_docs)]
#![deny(unsafe_code)]

mod columns;
mod combiner;
mod ffi;
mod file;
mod lists;
mod pieces;
mod point;
mod prices;
mod refusal;
mod whole;

pub mod lent;

pub use columns::{EventColumns, LentPieces, PairColumns, PieceColumns, PriceColumns};
pub use combiner::Combiner;
pub use file::{MOST_FILE, MOST_TEXT, join_file};
pub use lists::{LentLists, Lists, Tariff};
pub use pieces::{Event, Pair, Piece};
pub use point::Point;
pub use prices::Prices;
pub use refusal::{Place, Refusal};
pub use whole::{
    check, list_events, multiway_full_join, multiway_inner_join, multiway_symmetric_difference,
    multiway_union, two_way_full_join, two_way_inner_join, two_way_left_join,
};

/// The most lists that a call takes.
///
/// ```
/// use guineatwirl::{MOST_LISTS, Refusal, Tariff, multiway_union};
///
/// let lists = vec![Vec::<Tariff<u32>>::new(); MOST_LISTS + 1];
/// assert_eq!(multiway_union(&lists), Err(Refusal::TooManyLists { lists: 17 }));
/// ```
pub const MOST_LISTS: usize = 16;

/// The most ranges that the lists of a call have in all.
///
/// ```
/// use guineatwirl::{MOST_RANGES, Refusal, Tariff, multiway_union};
///
/// let list = vec![Tariff::new(1_u32..=5, 100); MOST_RANGES + 1];
/// assert_eq!(multiway_union(&[list]), Err(Refusal::TooManyRanges { ranges: 2049 }));
/// ```
pub const MOST_RANGES: usize = 2048;

/// The most pieces, or events, that a call writes: room for them is always enough.
///
/// ```
/// assert_eq!(guineatwirl::MOST_PIECES, 4096);
/// ```
pub const MOST_PIECES: usize = 2 * MOST_RANGES;
