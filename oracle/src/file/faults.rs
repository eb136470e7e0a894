//! Files with any set of faults at once, and the refusal that is due: that of the first in order.

use crate::call::{Answer, Operation};
use crate::file::case::{Case, Known};
use crate::file::writing::{OPERATIONS, head, list, numbers, range};

/// What can be wrong with a file, in the order in which it is judged.
#[derive(Clone, Copy, PartialEq, Eq)]
enum Fault {
    HeadMark,
    UnknownOperation,
    TooManyLists,
    NotTwoLists,
    UnknownCombiner,
    ListMark,
    TooManyRanges,
    RangeMark,
    CutShort,
    LeftOver,
    Backward,
    Overlapping,
}

const FAULTS: [Fault; 12] = [
    Fault::HeadMark,
    Fault::UnknownOperation,
    Fault::TooManyLists,
    Fault::NotTwoLists,
    Fault::UnknownCombiner,
    Fault::ListMark,
    Fault::TooManyRanges,
    Fault::RangeMark,
    Fault::CutShort,
    Fault::LeftOver,
    Fault::Backward,
    Fault::Overlapping,
];

/// Where the second of two lists begins, which has two ranges after the first list's one, where its
/// second range begins, and where the file ends.
const LIST: usize = 32;
const RANGE: usize = 58;
const END: usize = 80;

impl Fault {
    fn refusal(self) -> Answer {
        match self {
            Self::HeadMark => Answer::new(10, 0),
            Self::UnknownOperation => Answer::new(13, 0),
            Self::TooManyLists => Answer::new(1, 0),
            Self::NotTwoLists => Answer::new(2, 0),
            Self::UnknownCombiner => Answer::new(7, 0),
            Self::ListMark => Answer::new(10, LIST),
            Self::TooManyRanges => Answer::new(3, LIST),
            Self::RangeMark => Answer::new(10, RANGE),
            Self::CutShort => Answer::new(11, RANGE),
            Self::LeftOver => Answer::new(12, END),
            Self::Backward => Answer::new(5, 2),
            Self::Overlapping => Answer::new(6, 2),
        }
    }
}

/// Every set of faults that a file of each operation can have.
pub fn every_set() -> impl Iterator<Item = Case> {
    OPERATIONS.iter().flat_map(|&operation| {
        (0..1_u32 << FAULTS.len()).filter_map(move |set| {
            let chosen = |place: &usize| set >> place & 1 == 1;
            let faults = (0..FAULTS.len()).filter(chosen).map(|place| FAULTS[place]);
            with_faults(operation, &faults.collect::<Vec<_>>())
        })
    })
}

/// A file with these faults, or none where it cannot have all of them.
fn with_faults(operation: Operation, faults: &[Fault]) -> Option<Case> {
    let has = |fault| faults.contains(&fault);
    let not_two = has(Fault::NotTwoLists);
    if not_two && !operation.is_two_way() || has(Fault::CutShort) && has(Fault::LeftOver) {
        return None;
    }
    let [number, combiner] = numbers(operation);
    let number = if has(Fault::UnknownOperation) { 8 } else { number };
    let combiner = if has(Fault::UnknownCombiner) { combiner + 6 } else { combiner };
    let lists = if has(Fault::TooManyLists) { 17 } else { 2 + u16::from(not_two) };
    let ranges = if has(Fault::TooManyRanges) { 2048 } else { 2 };
    let start = if has(Fault::Overlapping) { 2 } else { 4 };
    let end = if has(Fault::Backward) { start - 1 } else { 5 };
    let mut file = head(number, combiner, lists);
    file.extend([list(1), range(1, 2, 3)].concat());
    file.extend([list(ranges), range(1, 2, 3), range(start, end, 6)].concat());
    file[0] ^= u8::from(has(Fault::HeadMark));
    file[LIST] ^= u8::from(has(Fault::ListMark));
    file[RANGE + 1] ^= u8::from(has(Fault::RangeMark));
    file.truncate(END - usize::from(has(Fault::CutShort)));
    file.resize(file.len() + usize::from(has(Fault::LeftOver)), 0x4A);
    let known = faults.first().map_or(Known::Nothing, |fault| Known::Refused(fault.refusal()));
    Some(Case { known, ..Case::of(file) })
}
