//! Refusals of a file, as the library prints them, in sentences.

use guineatwirl::{MOST_FILE, Place, Refusal};

use crate::bytes::{Record, lists};
use crate::operation::{OPERATIONS, Operation};

/// A refusal's code and number.
#[derive(Clone, Copy, Debug, PartialEq, Eq)]
pub struct Refused {
    pub code: u8,
    pub number: usize,
}

impl Refused {
    /// What a printed text refuses, if it does.
    pub fn printed(text: &str) -> Option<Self> {
        let (code, number) = text.strip_prefix("refused ")?.trim_end().split_once(' ')?;
        Some(Self { code: code.parse().ok()?, number: number.parse().ok()? })
    }

    /// The records are whole, and one of the ranges is faulty.
    pub const fn is_of_a_range(self) -> bool {
        matches!(self.code, 5 | 6)
    }

    /// What is wrong with the file, and where.
    pub fn sentence(self, file: &[u8]) -> String {
        let at = self.number;
        // Of the codes whose number is the offset of a record.
        let record = || Record::at(at, file);
        match self.code {
            1 => Refusal::TooManyLists { lists: list_count(file) }.to_string(),
            2 => Refusal::NotTwoLists { lists: list_count(file) }.to_string(),
            3 => {
                format!("with {}: {}", record(), Refusal::TooManyRanges { ranges: total(file, at) })
            }
            5 => Refusal::BackwardRange(place(file, at)).to_string(),
            6 => Refusal::OverlappingRange(place(file, at)).to_string(),
            7 => combiner_sentence(file),
            9 => format!("the file has more than {MOST_FILE} bytes, the most that lists take"),
            10 => wrong_mark(record(), at),
            11 => cut_short(record(), at, file.len()),
            12 => format!("the records end at {at}, and the file goes on to {}", file.len()),
            13 => format!(
                "there is no operation {}: they have the numbers 1 to {}",
                byte(file, 2),
                OPERATIONS.len()
            ),
            code => format!("there is no sentence for code {code} with number {at}"),
        }
    }
}

fn wrong_mark(record: Record, at: usize) -> String {
    let [first, second] = record.mark();
    format!("{record} should begin at offset {at}, with {first:02X} {second:02X}")
}

fn cut_short(record: Record, at: usize, end: usize) -> String {
    if at == end {
        return format!("the file ends at {end}, where {record} should begin");
    }
    let size = record.size();
    format!("the file ends at {end}, within {record}, whose {size} bytes begin at offset {at}")
}

fn byte(file: &[u8], at: usize) -> u8 {
    file.get(at).copied().unwrap_or(0)
}

fn list_count(file: &[u8]) -> usize {
    usize::from(u16::from_be_bytes([byte(file, 4), byte(file, 5)]))
}

/// The ranges of all lists up to the one at an offset.
fn total(file: &[u8], at: usize) -> usize {
    lists(file).take_while(|list| list.offset <= at).map(|list| list.ranges).sum()
}

/// Where the range of that index stands.
fn place(file: &[u8], index: usize) -> Place {
    let mut range = index;
    for (list, record) in lists(file).enumerate() {
        if range < record.ranges {
            return Place { list, range, index };
        }
        range -= record.ranges;
    }
    Place { list: 0, range: index, index }
}

fn combiner_sentence(file: &[u8]) -> String {
    let combiner = byte(file, 3);
    match Operation::numbered(byte(file, 2)) {
        Some(operation) if !operation.combines => {
            format!("{} has combiner {combiner}, and takes 0", operation.name)
        }
        _ => Refusal::UnknownCombiner { combiner }.to_string(),
    }
}
