//! A tariff file read independently: its bytes to what they ask for, or to a refusal.

use crate::call::{Answer, Lent, MOST_LISTS, MOST_RANGES, Operation};
use crate::reading;

/// The most bytes of a file.
pub const MOST_BYTES: usize = 45_126;

/// What a file asks for.
#[derive(Clone, Debug, PartialEq, Eq)]
pub struct Request {
    pub operation: Operation,
    pub lent: Lent<i64>,
}

/// What a file asks for, or the refusal that comes first.
pub fn read(file: &[u8]) -> Result<Request, Answer> {
    if file.len() > MOST_BYTES {
        return Err(Answer::new(9, MOST_BYTES));
    }
    let mut records = Records { file, next: 0 };
    let (operation, lists) = read_head(&mut records)?;
    let mut lent = Lent { starts: vec![], ends: vec![], values: vec![], counts: vec![] };
    for _ in 0..lists {
        read_list(&mut records, &mut lent)?;
    }
    if records.next < file.len() {
        return Err(Answer::new(12, records.next));
    }
    match reading::refusal(operation, &lent) {
        Some(answer) => Err(answer),
        None => Ok(Request { operation, lent }),
    }
}

/// The records of a file, read up to an offset.
struct Records<'a> {
    file: &'a [u8],
    next: usize,
}

impl<'a> Records<'a> {
    /// The next record, which is so long and begins with a mark.
    fn take<const LENGTH: usize>(&mut self, mark: &[u8; 2]) -> Result<&'a [u8; LENGTH], Answer> {
        let offset = self.next;
        let rest = &self.file[offset..];
        if rest.len() >= mark.len() && !rest.starts_with(mark) {
            return Err(Answer::new(10, offset));
        }
        self.next += LENGTH;
        rest.first_chunk().ok_or(Answer::new(11, offset))
    }
}

/// The operation, and how many lists follow.
fn read_head(records: &mut Records<'_>) -> Result<(Operation, usize), Answer> {
    let &[_, _, number, combiner, high, low] = records.take(b"JH")?;
    let lists = usize::from(u16::from_be_bytes([high, low]));
    let operation = match number {
        1 => Operation::TwoWayInner,
        2 => Operation::TwoWayLeft,
        3 => Operation::TwoWayFull,
        4 => Operation::Inner(combiner),
        5 => Operation::Full(combiner),
        6 => Operation::Union,
        7 => Operation::SymmetricDifference,
        _ => return Err(Answer::new(13, 0)),
    };
    let combiners = if operation.combiner().is_some() { 1..=5 } else { 0..=0 };
    if lists > MOST_LISTS {
        Err(Answer::new(1, 0))
    } else if operation.is_two_way() && lists != 2 {
        Err(Answer::new(2, 0))
    } else if !combiners.contains(&combiner) {
        Err(Answer::new(7, 0))
    } else {
        Ok((operation, lists))
    }
}

/// Lays a list at the end of the columns.
fn read_list(records: &mut Records<'_>, lent: &mut Lent<i64>) -> Result<(), Answer> {
    let offset = records.next;
    let &[_, _, high, low] = records.take(b"JL")?;
    let count = u16::from_be_bytes([high, low]);
    if lent.starts.len() + usize::from(count) > MOST_RANGES {
        return Err(Answer::new(3, offset));
    }
    lent.counts.push(u32::from(count));
    lent.starts.reserve(usize::from(count));
    lent.ends.reserve(usize::from(count));
    lent.values.reserve(usize::from(count));
    for _ in 0..count {
        let record: &[u8; 22] = records.take(b"JR")?;
        lent.starts.push(i64::from_be_bytes(record[2..10].try_into().expect("8 bytes")));
        lent.ends.push(i64::from_be_bytes(record[10..18].try_into().expect("8 bytes")));
        lent.values.push(i32::from_be_bytes(record[18..].try_into().expect("4 bytes")));
    }
    Ok(())
}
