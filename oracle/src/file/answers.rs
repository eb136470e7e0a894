//! The fixed list of files and their texts, as the program `replay` has it in `answers.bin`.

use crate::call::Operation;
use crate::file::damage::{at_records, damaged};
use crate::file::heads::with_lists;
use crate::file::lengths::counts_over;
use crate::file::sound::{EXAMPLE, longest, request, request_of_ranges, sheet, small_requests};
use crate::file::writing::{OPERATIONS, numbers, written};
use crate::file::{reading, text};
use crate::generator::USUAL;
use crate::random::Random;

const SEED: u64 = 1;
const FILE: &str = concat!(env!("CARGO_MANIFEST_DIR"), "/../crates/replay/data/answers.bin");

/// The whole list: for each file its length and its text's in four bytes each, the highest first,
/// then the file, then the text.
pub fn bytes() -> Vec<u8> {
    let mut list = Vec::new();
    for file in files() {
        let text = text::due(&file);
        list.extend((file.len() as u32).to_be_bytes());
        list.extend((text.len() as u32).to_be_bytes());
        list.extend(file);
        list.extend(text.into_bytes());
    }
    list
}

/// Holds the stored list against the one that would be written.
pub fn compare_with_file() -> Result<(), String> {
    let found = std::fs::read(FILE).map_err(|error| format!("answers.bin: {error}"))?;
    let due = bytes();
    if found == due {
        return Ok(());
    }
    let same = due.iter().zip(&found).take_while(|(due, found)| due == found).count();
    Err(format!("a difference in answers.bin, byte {same}: run tools/compare files"))
}

/// The files of the list.
pub fn files() -> Vec<Vec<u8>> {
    let example = reading::read(EXAMPLE).expect("the example is well formed");
    let mut files: Vec<Vec<u8>> = sheet().into_iter().map(|case| case.file).collect();
    files.extend(small_requests(SEED, 6).iter().map(written));
    files.extend(OPERATIONS.iter().map(|&operation| written(&usual(operation))));
    files.extend((0..EXAMPLE.len()).map(|length| EXAMPLE[..length].to_vec()));
    files.extend(at_records(example).map(|case| case.file));
    files.extend(heads());
    files.extend(counts_over().step_by(397).map(|case| case.file));
    files.extend((0..60).map(|number| damaged(SEED, number).file));
    files.extend([Operation::TwoWayFull, Operation::Full(5), Operation::Union].map(larger));
    let longest = written(&longest(Operation::Full(1)));
    files.push([&longest[..], &[0]].concat());
    files.push(longest);
    files
}

/// Operations and combiners, known and unknown, with no lists, two and too many.
fn heads() -> impl Iterator<Item = Vec<u8>> {
    (0..=8).chain([255]).flat_map(|operation| {
        [0, 1, 5, 6].into_iter().flat_map(move |combiner| {
            [0, 2, 17].map(|lists| with_lists(operation, combiner, lists, 0))
        })
    })
}

fn usual(operation: Operation) -> reading::Request {
    let [number, combiner] = numbers(operation).map(u64::from);
    let random = &mut Random::of_case(SEED, "usual file", 8 * number + combiner);
    request(random, operation, USUAL)
}

/// Some hundred ranges.
fn larger(operation: Operation) -> Vec<u8> {
    let [number, _] = numbers(operation);
    let random = &mut Random::of_case(SEED, "larger file", u64::from(number));
    written(&request_of_ranges(random, operation, 300))
}
