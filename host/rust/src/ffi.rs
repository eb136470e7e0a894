//! The C functions of the proved library as functions over slices, and all `unsafe` of the
//! package.
//!
//! The declarations are those of `include/guineatwirl.h`. A column is passed as where it starts and
//! its length; the answer's code comes back, and its number goes to the last argument. A file and
//! its text are passed likewise, and the text's length comes back.

#![allow(unsafe_code)]

use crate::{EventColumns, LentLists, LentPieces, PairColumns, PieceColumns, PriceColumns, Tariff};

// A slice of tariffs is lent as it lies: as the C structs do.
const _: () = assert!(size_of::<Tariff<u32>>() == 12 && size_of::<Tariff<i64>>() == 24);

/// What a C function answers: the code and number of the rules.
#[derive(Clone, Copy, Debug, PartialEq, Eq)]
pub struct Answer {
    pub code: u8,
    pub number: u64,
}

/// The functions of one width. They answer as the library does, and write what it writes.
pub trait Functions: Sized {
    fn check_list(list: &[Tariff<Self>]) -> Answer;
    fn list_events(lists: LentLists<'_, Self>, out: &mut EventColumns<'_, Self>) -> Answer;
    fn two_way_inner_join(lists: LentLists<'_, Self>, out: &mut PairColumns<'_, Self>) -> Answer;
    fn two_way_left_join(lists: LentLists<'_, Self>, out: &mut PairColumns<'_, Self>) -> Answer;
    fn two_way_full_join(lists: LentLists<'_, Self>, out: &mut PairColumns<'_, Self>) -> Answer;
    fn multiway_inner_join(
        combiner: u8,
        lists: LentLists<'_, Self>,
        out: &mut PieceColumns<'_, Self>,
    ) -> Answer;
    fn multiway_full_join(
        combiner: u8,
        lists: LentLists<'_, Self>,
        out: &mut PieceColumns<'_, Self>,
    ) -> Answer;
    fn multiway_union(lists: LentLists<'_, Self>, out: &mut PieceColumns<'_, Self>) -> Answer;
    fn multiway_symmetric_difference(
        lists: LentLists<'_, Self>,
        out: &mut PieceColumns<'_, Self>,
    ) -> Answer;
}

/// Declares the C functions of one width, by what they write.
macro_rules! declare {
    (
        $point:ty; checks: $($checks:ident)*; events: $($events:ident)*; pairs: $($pairs:ident)*;
        joins: $($joins:ident)*; selections: $($selections:ident)*
    ) => {
        unsafe extern "C" {
            $(fn $checks(list: *const Tariff<$point>, list_len: usize, number: *mut u64) -> u8;)*
            $(fn $events(
                starts: *const $point, starts_len: usize, ends: *const $point, ends_len: usize,
                values: *const i32, values_len: usize, counts: *const u32, counts_len: usize,
                out_kind: *mut u8, out_kind_len: usize,
                out_point: *mut $point, out_point_len: usize,
                out_list: *mut u8, out_list_len: usize,
                out_value: *mut i32, out_value_len: usize, number: *mut u64,
            ) -> u8;)*
            $(fn $pairs(
                starts: *const $point, starts_len: usize, ends: *const $point, ends_len: usize,
                values: *const i32, values_len: usize, counts: *const u32, counts_len: usize,
                out_start: *mut $point, out_start_len: usize,
                out_end: *mut $point, out_end_len: usize,
                out_left: *mut i32, out_left_len: usize, out_right: *mut i32, out_right_len: usize,
                out_presence: *mut u8, out_presence_len: usize, number: *mut u64,
            ) -> u8;)*
            $(fn $joins(
                combiner: u8,
                starts: *const $point, starts_len: usize, ends: *const $point, ends_len: usize,
                values: *const i32, values_len: usize, counts: *const u32, counts_len: usize,
                out_start: *mut $point, out_start_len: usize,
                out_end: *mut $point, out_end_len: usize,
                out_value: *mut i64, out_value_len: usize, number: *mut u64,
            ) -> u8;)*
            $(fn $selections(
                starts: *const $point, starts_len: usize, ends: *const $point, ends_len: usize,
                values: *const i32, values_len: usize, counts: *const u32, counts_len: usize,
                out_start: *mut $point, out_start_len: usize,
                out_end: *mut $point, out_end_len: usize,
                out_value: *mut i64, out_value_len: usize, number: *mut u64,
            ) -> u8;)*
        }
    };
}

/// Calls a C function with lent lists and with columns to write to, and perhaps a combiner first.
macro_rules! call {
    ($function:ident, $lists:ident, [$($column:expr),*] $(, $combiner:ident)?) => {{
        let mut number = 0;
        // Sound: each pointer goes with the length of the slice that it points into. The slices
        // that are written are lent to this call alone, so no two columns overlap, and neither
        // does `number`. The C function reads and writes within the lengths, and keeps no pointer.
        let code = unsafe {
            $function(
                $($combiner,)?
                $lists.starts.as_ptr(), $lists.starts.len(),
                $lists.ends.as_ptr(), $lists.ends.len(),
                $lists.values.as_ptr(), $lists.values.len(),
                $lists.counts.as_ptr(), $lists.counts.len(),
                $($column.as_mut_ptr(), $column.len(),)*
                &mut number,
            )
        };
        Answer { code, number }
    }};
}

/// Makes the C functions of one width the functions of its points.
macro_rules! functions {
    (
        $point:ty;
        checks: $($checks:ident = $c_checks:ident)*;
        events: $($events:ident = $c_events:ident)*;
        pairs: $($pairs:ident = $c_pairs:ident)*;
        joins: $($joins:ident = $c_joins:ident)*;
        selections: $($selections:ident = $c_selections:ident)*
    ) => {
        declare!(
            $point; checks: $($c_checks)*; events: $($c_events)*; pairs: $($c_pairs)*;
            joins: $($c_joins)*; selections: $($c_selections)*
        );

        impl Functions for $point {
            $(fn $checks(list: &[Tariff<Self>]) -> Answer {
                let mut number = 0;
                // Sound: the pointer goes with the length of the slice, whose structs lie as those
                // of C do. The C function reads within the length, and keeps no pointer.
                let code = unsafe { $c_checks(list.as_ptr(), list.len(), &mut number) };
                Answer { code, number }
            })*
            $(fn $events(lists: LentLists<'_, Self>, out: &mut EventColumns<'_, Self>) -> Answer {
                call!($c_events, lists, [out.kinds, out.points, out.lists, out.values])
            })*
            $(fn $pairs(lists: LentLists<'_, Self>, out: &mut PairColumns<'_, Self>) -> Answer {
                call!($c_pairs, lists, [out.starts, out.ends, out.lefts, out.rights, out.presences])
            })*
            $(fn $joins(
                combiner: u8,
                lists: LentLists<'_, Self>,
                out: &mut PieceColumns<'_, Self>,
            ) -> Answer {
                call!($c_joins, lists, [out.starts, out.ends, out.values], combiner)
            })*
            $(fn $selections(
                lists: LentLists<'_, Self>,
                out: &mut PieceColumns<'_, Self>,
            ) -> Answer {
                call!($c_selections, lists, [out.starts, out.ends, out.values])
            })*
        }
    };
}

functions! {
    u32;
    checks:
        check_list = guineatwirl_seat_check_list;
    events:
        list_events = guineatwirl_seat_list_events;
    pairs:
        two_way_inner_join = guineatwirl_seat_two_way_inner_join
        two_way_left_join = guineatwirl_seat_two_way_left_join
        two_way_full_join = guineatwirl_seat_two_way_full_join;
    joins:
        multiway_inner_join = guineatwirl_seat_multiway_inner_join
        multiway_full_join = guineatwirl_seat_multiway_full_join;
    selections:
        multiway_union = guineatwirl_seat_multiway_union
        multiway_symmetric_difference = guineatwirl_seat_multiway_symmetric_difference
}

functions! {
    i64;
    checks:
        check_list = guineatwirl_instant_check_list;
    events:
        list_events = guineatwirl_instant_list_events;
    pairs:
        two_way_inner_join = guineatwirl_instant_two_way_inner_join
        two_way_left_join = guineatwirl_instant_two_way_left_join
        two_way_full_join = guineatwirl_instant_two_way_full_join;
    joins:
        multiway_inner_join = guineatwirl_instant_multiway_inner_join
        multiway_full_join = guineatwirl_instant_multiway_full_join;
    selections:
        multiway_union = guineatwirl_instant_multiway_union
        multiway_symmetric_difference = guineatwirl_instant_multiway_symmetric_difference
}

/// The functions of one width that read prices.
pub trait Readings: Sized {
    fn price_at(pieces: LentPieces<'_, Self>, point: Self) -> Option<i64>;
    fn prices_at(
        pieces: LentPieces<'_, Self>,
        points: &[Self],
        out: &mut PriceColumns<'_>,
    ) -> Answer;
}

/// Declares the C functions of one width that read prices, and makes them functions of its points.
macro_rules! readings {
    ($point:ty, $price_at:ident, $prices_at:ident) => {
        unsafe extern "C" {
            fn $price_at(
                start: *const $point,
                start_len: usize,
                end: *const $point,
                end_len: usize,
                value: *const i64,
                value_len: usize,
                pieces: usize,
                point: $point,
                price: *mut i64,
            ) -> u8;
            fn $prices_at(
                start: *const $point,
                start_len: usize,
                end: *const $point,
                end_len: usize,
                value: *const i64,
                value_len: usize,
                pieces: usize,
                points: *const $point,
                points_len: usize,
                out_value: *mut i64,
                out_value_len: usize,
                out_presence: *mut u8,
                out_presence_len: usize,
                number: *mut u64,
            ) -> u8;
        }

        // Sound, both, for the reasons that `call` gives.
        impl Readings for $point {
            #[inline]
            fn price_at(pieces: LentPieces<'_, Self>, point: Self) -> Option<i64> {
                let LentPieces { starts, ends, values } = pieces;
                let mut price = 0;
                let presence = unsafe {
                    $price_at(
                        starts.as_ptr(),
                        starts.len(),
                        ends.as_ptr(),
                        ends.len(),
                        values.as_ptr(),
                        values.len(),
                        starts.len(),
                        point,
                        &mut price,
                    )
                };
                (presence != 0).then_some(price)
            }

            fn prices_at(
                pieces: LentPieces<'_, Self>,
                points: &[Self],
                out: &mut PriceColumns<'_>,
            ) -> Answer {
                let LentPieces { starts, ends, values } = pieces;
                let mut number = 0;
                let code = unsafe {
                    $prices_at(
                        starts.as_ptr(),
                        starts.len(),
                        ends.as_ptr(),
                        ends.len(),
                        values.as_ptr(),
                        values.len(),
                        starts.len(),
                        points.as_ptr(),
                        points.len(),
                        out.values.as_mut_ptr(),
                        out.values.len(),
                        out.presences.as_mut_ptr(),
                        out.presences.len(),
                        &mut number,
                    )
                };
                Answer { code, number }
            }
        }
    };
}

readings!(u32, guineatwirl_seat_price_at, guineatwirl_seat_prices_at);
readings!(i64, guineatwirl_instant_price_at, guineatwirl_instant_prices_at);

unsafe extern "C" {
    fn guineatwirl_join_file(
        file: *const u8,
        file_len: usize,
        text: *mut u8,
        text_len: usize,
    ) -> usize;
}

/// Writes the printed text of a file to the front of `text`, and answers its length, or 0 where it
/// does not fit.
pub fn join_file(file: &[u8], text: &mut [u8]) -> usize {
    // Sound: each pointer goes with the length of the slice that it points into, and `text` is lent
    // to this call alone. The C function reads and writes within the lengths, and keeps no pointer.
    unsafe { guineatwirl_join_file(file.as_ptr(), file.len(), text.as_mut_ptr(), text.len()) }
}
