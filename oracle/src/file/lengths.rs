//! Files about the limits: of bytes in all, and of ranges in all lists.

use crate::call::{MOST_LISTS, MOST_RANGES, Operation};
use crate::file::case::Case;
use crate::file::reading::MOST_BYTES;
use crate::file::sound::{longest, request_of_ranges, sound};
use crate::file::writing::{OPERATIONS, head, list, numbers, range, written};
use crate::random::Random;

/// Files of about the greatest length, and of more.
pub fn about_the_longest(seed: u64) -> impl Iterator<Item = Case> {
    let any_lists = OPERATIONS.iter().filter(|operation| !operation.is_two_way());
    any_lists.flat_map(|&operation| of_longest(operation)).chain(of_any_bytes()).chain(
        OPERATIONS.iter().enumerate().flat_map(move |(number, &operation)| {
            let random = &mut Random::of_case(seed, "about the longest", number as u64);
            of_crowded(random, operation)
        }),
    )
}

/// The longest file, shorter by a byte, damaged at its ends, and longer.
fn of_longest(operation: Operation) -> Vec<Case> {
    let request = longest(operation);
    let file = written(&request);
    assert_eq!(file.len(), MOST_BYTES, "the longest file");
    let too_long =
        |more: usize| Case::refused([file.clone(), vec![0x4A; more]].concat(), 9, MOST_BYTES);
    let mut wrong_mark = file.clone();
    wrong_mark[0] = 0;
    let mut unknown = file.clone();
    unknown[2] = 8;
    let longer_and_wrong = [&wrong_mark[..], &[0]].concat();
    vec![
        Case::refused(file[..MOST_BYTES - 1].to_vec(), 11, MOST_BYTES - 22),
        Case::refused(wrong_mark, 10, 0),
        Case::refused(unknown, 13, 0),
        Case::refused(longer_and_wrong, 9, MOST_BYTES),
        too_long(1),
        too_long(2),
        too_long(MOST_BYTES),
        sound(request),
    ]
}

/// Bytes of no meaning on both sides of the greatest length.
fn of_any_bytes() -> impl Iterator<Item = Case> {
    let lengths = [MOST_BYTES - 1, MOST_BYTES, MOST_BYTES + 1, 65_535, 65_536, 65_542, 1 << 20];
    [0, 0x4A, 0xFF].into_iter().flat_map(move |byte| {
        lengths.into_iter().map(move |length| {
            let (code, number) = if length > MOST_BYTES { (9, MOST_BYTES) } else { (10, 0) };
            Case::refused(vec![byte; length], code, number)
        })
    })
}

/// A range more than allowed; and the most ranges with bytes left over up to the greatest length, and
/// beyond it.
fn of_crowded(random: &mut Random, operation: Operation) -> Vec<Case> {
    let file = written(&request_of_ranges(random, operation, MOST_RANGES as u64));
    let left = MOST_BYTES - file.len();
    let lengthened = |more: usize| [file.clone(), vec![0x4A; more]].concat();
    let one_more = written(&request_of_ranges(random, operation, MOST_RANGES as u64 + 1));
    let mut cases = vec![Case::of(one_more), Case::refused(lengthened(left + 1), 9, MOST_BYTES)];
    if left > 0 {
        cases.extend([1, left].map(|more| Case::refused(lengthened(more), 12, file.len())));
    }
    cases
}

/// Counts that add up to the most ranges or to more, at every list of every number of lists. No
/// range follows the last of them.
pub fn counts_over() -> impl Iterator<Item = Case> {
    let numbers_of_lists = (1..=MOST_LISTS).flat_map(|lists| (0..lists).map(move |at| (lists, at)));
    numbers_of_lists.flat_map(|(lists, at)| {
        let able = move |operation: &&Operation| !operation.is_two_way() || lists == 2;
        OPERATIONS.iter().filter(able).flat_map(move |&operation| {
            let [number, combiner] = numbers(operation);
            let mut file = head(number, combiner, lists as u16);
            for _ in 0..at {
                file.extend([list(1), range(1, 2, 3)].concat());
            }
            let offset = file.len();
            let most = (MOST_RANGES - at) as u16;
            let counted = move |count: u16| [file.clone(), list(count)].concat();
            let over = [most + 1, most + 2, 4096, 32_768, 65_535];
            let cut = Case::refused(counted(most), 11, offset + 4);
            over.map(|count| Case::refused(counted(count), 3, offset)).into_iter().chain([cut])
        })
    })
}
