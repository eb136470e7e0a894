//! The records of a tariff file, written and read. What a file must have is judged by the library.

use core::fmt::{self, Display};

use guineatwirl::{Combiner, Tariff};

use crate::house::{House, List};
use crate::operation::Operation;

pub const HEAD: [u8; 2] = *b"JH";
const LIST: [u8; 2] = *b"JL";
const RANGE: [u8; 2] = *b"JR";

const HEAD_SIZE: usize = 6;
const LIST_SIZE: usize = 4;
const RANGE_SIZE: usize = 22;

/// The file of a house that is within the limits.
pub fn packed(house: &House) -> Vec<u8> {
    let mut file = HEAD.to_vec();
    file.push(house.operation.number);
    file.push(house.combiner.map_or(0, Combiner::number));
    file.extend(count(house.lists.len()));
    for list in &house.lists {
        file.extend(LIST);
        file.extend(count(list.ranges.len()));
        for range in &list.ranges {
            file.extend(RANGE);
            file.extend(range.start.to_be_bytes());
            file.extend(range.end.to_be_bytes());
            file.extend(range.value.to_be_bytes());
        }
    }
    file
}

fn count(number: usize) -> [u8; 2] {
    u16::try_from(number).unwrap_or(u16::MAX).to_be_bytes()
}

/// The house of a file whose records are whole; a list is named by its number. `None` where they
/// are not.
pub fn unpacked(file: &[u8]) -> Option<House> {
    let (&[mark_0, mark_1, operation, combiner, lists_0, lists_1], mut rest) =
        file.split_first_chunk::<HEAD_SIZE>()?;
    let operation = Operation::numbered(operation)?;
    let combiner = if operation.combines { Some(Combiner::from_number(combiner)?) } else { None };
    let lists = u16::from_be_bytes([lists_0, lists_1]);
    let lists = (0..lists).map(|number| list(number, &mut rest)).collect::<Option<_>>()?;
    let whole = [mark_0, mark_1] == HEAD && rest.is_empty();
    whole.then_some(House { operation, combiner, lists })
}

fn list(number: u16, rest: &mut &[u8]) -> Option<List> {
    let (record, after) = rest.split_first_chunk::<LIST_SIZE>()?;
    *rest = after;
    let ranges = u16::from_be_bytes(*record.strip_prefix(&LIST)?.first_chunk()?);
    let ranges = (0..ranges).map(|_| range(rest)).collect::<Option<_>>()?;
    Some(List { name: number.to_string(), ranges })
}

fn range(rest: &mut &[u8]) -> Option<Tariff<i64>> {
    let (record, after) = rest.split_first_chunk::<RANGE_SIZE>()?;
    *rest = after;
    let (start, fields) = record.strip_prefix(&RANGE)?.split_first_chunk()?;
    let (end, fields) = fields.split_first_chunk()?;
    let value = i32::from_be_bytes(*fields.first_chunk()?);
    Some(Tariff { start: i64::from_be_bytes(*start), end: i64::from_be_bytes(*end), value })
}

/// A record of a file. Everything is counted from 0.
#[derive(Clone, Copy, Debug, PartialEq, Eq)]
pub enum Record {
    Head,
    List(usize),
    Range { list: usize, range: usize },
}

impl Record {
    pub const fn mark(self) -> [u8; 2] {
        match self {
            Self::Head => HEAD,
            Self::List(_) => LIST,
            Self::Range { .. } => RANGE,
        }
    }

    pub const fn size(self) -> usize {
        match self {
            Self::Head => HEAD_SIZE,
            Self::List(_) => LIST_SIZE,
            Self::Range { .. } => RANGE_SIZE,
        }
    }

    /// The record at an offset, of a file whose records before it are whole.
    pub fn at(offset: usize, file: &[u8]) -> Self {
        if offset < HEAD_SIZE {
            return Self::Head;
        }
        let before = lists(file).take_while(|list| list.offset < offset).enumerate().last();
        let Some((list, ListRecord { offset: at, ranges })) = before else { return Self::List(0) };
        let range = (offset - at).saturating_sub(LIST_SIZE) / RANGE_SIZE;
        if range < ranges { Self::Range { list, range } } else { Self::List(list + 1) }
    }
}

/// Where the record of a list begins, and how many ranges it says that there are.
#[derive(Clone, Copy, Debug)]
pub struct ListRecord {
    pub offset: usize,
    pub ranges: usize,
}

/// The records of lists, in turn, for as long as the file goes on.
pub fn lists(file: &[u8]) -> impl Iterator<Item = ListRecord> {
    let mut next = HEAD_SIZE;
    core::iter::from_fn(move || {
        let offset = next;
        let count = file.get(offset + 2..offset + LIST_SIZE)?.first_chunk()?;
        let ranges = usize::from(u16::from_be_bytes(*count));
        next = offset + LIST_SIZE + RANGE_SIZE * ranges;
        Some(ListRecord { offset, ranges })
    })
}

impl Display for Record {
    fn fmt(&self, out: &mut fmt::Formatter<'_>) -> fmt::Result {
        match self {
            Self::Head => write!(out, "the head"),
            Self::List(list) => write!(out, "list {list} (counted from 0)"),
            Self::Range { list, range } => {
                write!(out, "range {range} of list {list} (counted from 0)")
            }
        }
    }
}
