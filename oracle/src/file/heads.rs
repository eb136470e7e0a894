//! Files whose head is tried: every operation, combiner and number of lists, and no whole head.

use crate::file::case::Case;
use crate::file::writing::{head, list};

/// Combiners tried with every operation.
const COMBINERS: [u8; 6] = [0, 1, 5, 6, 128, 255];

/// Operations tried with every number of lists.
const TWO_WAY_FULL: u8 = 3;
const FULL: u8 = 5;

/// Numbers of lists beside those up to 20, tried with every operation and combiner.
const MANY_LISTS: [u16; 8] = [31, 127, 255, 256, 258, 4096, 32_768, 65_535];

/// A head and its lists, which claim so many ranges each and have none; those beyond 20 do not
/// follow.
pub fn with_lists(operation: u8, combiner: u8, lists: u16, ranges: u16) -> Vec<u8> {
    let bodies = list(ranges).repeat(usize::from(lists.min(20)));
    [head(operation, combiner, lists), bodies].concat()
}

/// Every operation under some combiners and every combiner under the operations up to 8, known or
/// not, with some numbers of lists, which are empty or claim too many ranges.
pub fn every_head() -> impl Iterator<Item = Case> {
    let combiners = |operation: u8| {
        let tried = move |combiner: &u8| operation <= 8 || COMBINERS.contains(combiner);
        (0..=255).filter(tried).map(move |combiner| (operation, combiner))
    };
    (0..=255).flat_map(combiners).flat_map(|(operation, combiner)| {
        (0..=20).chain(MANY_LISTS).flat_map(move |lists| {
            [0, 2049].map(|ranges| Case::of(with_lists(operation, combiner, lists, ranges)))
        })
    })
}

/// Every number of lists, under a two-way operation and under one that takes any number up to 16.
pub fn every_number_of_lists() -> impl Iterator<Item = Case> {
    let case = |operation, combiner, lists| {
        let file = with_lists(operation, combiner, lists, 0);
        match lists {
            17.. => Case::refused(file, 1, 0),
            _ if operation == TWO_WAY_FULL && lists != 2 => Case::refused(file, 2, 0),
            _ => Case::of(file),
        }
    };
    let operations = [(TWO_WAY_FULL, 0), (FULL, 1)].into_iter();
    operations.flat_map(move |(operation, combiner)| {
        (0..=u16::MAX).map(move |lists| case(operation, combiner, lists))
    })
}

/// Every file of no byte, one and two.
pub fn every_start() -> impl Iterator<Item = Case> {
    let lone = (0..=255_u8).map(|byte| Case::refused(vec![byte], 11, 0));
    let pair = |bytes: u16| {
        let code = if bytes == 0x4A48 { 11 } else { 10 };
        Case::refused(bytes.to_be_bytes().to_vec(), code, 0)
    };
    [Case::refused(vec![], 11, 0)].into_iter().chain(lone).chain((0..=u16::MAX).map(pair))
}
