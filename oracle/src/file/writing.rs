//! Tariff files written, and where their records lie.

use core::ops::Range;

use crate::call::{Lent, Operation};
use crate::file::reading::Request;

/// Every operation that a file can ask for, the many-way joins under each known combiner.
pub const OPERATIONS: &[Operation] = Operation::ALL.split_at(1).1;

/// The number of an operation, and of its combiner.
pub fn numbers(operation: Operation) -> [u8; 2] {
    match operation {
        Operation::TwoWayInner => [1, 0],
        Operation::TwoWayLeft => [2, 0],
        Operation::TwoWayFull => [3, 0],
        Operation::Inner(combiner) => [4, combiner],
        Operation::Full(combiner) => [5, combiner],
        Operation::Union => [6, 0],
        Operation::SymmetricDifference => [7, 0],
        Operation::Events => panic!("no file asks for events"),
    }
}

/// The file of a request.
pub fn written(Request { operation, lent }: &Request) -> Vec<u8> {
    let [number, combiner] = numbers(*operation);
    let mut file = head(number, combiner, lent.counts.len() as u16);
    for places in lent.list_places() {
        file.extend(list(places.len() as u16));
        for place in places {
            file.extend(range(lent.starts[place], lent.ends[place], lent.values[place]));
        }
    }
    file
}

pub fn head(operation: u8, combiner: u8, lists: u16) -> Vec<u8> {
    let [high, low] = lists.to_be_bytes();
    vec![0x4A, 0x48, operation, combiner, high, low]
}

pub fn list(ranges: u16) -> Vec<u8> {
    let [high, low] = ranges.to_be_bytes();
    vec![0x4A, 0x4C, high, low]
}

pub fn range(start: i64, end: i64, value: i32) -> Vec<u8> {
    let mut record = vec![0x4A, 0x52];
    record.extend(start.to_be_bytes());
    record.extend(end.to_be_bytes());
    record.extend(value.to_be_bytes());
    record
}

/// What a record of a file is about.
#[derive(Clone, Copy)]
pub enum Topic {
    Head,
    /// How many ranges the list has.
    List(u16),
    /// The place of the range among those of all lists, and whether it is the first of its list.
    Range(usize, bool),
}

/// A record of a file.
#[derive(Clone, Copy)]
pub struct Record {
    pub offset: usize,
    pub topic: Topic,
}

impl Record {
    pub fn length(self) -> usize {
        match self.topic {
            Topic::Head => 6,
            Topic::List(_) => 4,
            Topic::Range(..) => 22,
        }
    }

    /// The offsets of its mark.
    pub fn mark(self) -> Range<usize> {
        self.offset..self.offset + 2
    }

    /// The offset just past it.
    pub fn end(self) -> usize {
        self.offset + self.length()
    }
}

/// The records of the file of these lists, in turn.
pub fn records(lent: &Lent<i64>) -> Vec<Record> {
    let mut topics = vec![Topic::Head];
    for places in lent.list_places() {
        topics.push(Topic::List(places.len() as u16));
        topics.extend(places.clone().map(|place| Topic::Range(place, place == places.start)));
    }
    let mut offset = 0;
    let record = |topic| {
        let record = Record { offset, topic };
        offset = record.end();
        record
    };
    topics.into_iter().map(record).collect()
}
