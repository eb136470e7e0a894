//! Malformed calls: faults planted at known places, with the refusal that is then due.

use crate::call::{Answer, Call, Lent, MOST_LISTS, MOST_RANGES, Operation, Point};
use crate::case::{Case, Due};
use crate::generator::{
    Size, USUAL, lists, lists_of_ranges, most_pieces, one_place_short, uneven_columns,
};
use crate::random::Random;

/// What can be wrong with a call, in the order in which the rules judge it.
#[derive(Clone, Copy, Debug, PartialEq, Eq)]
pub enum Fault {
    TooManyLists,
    NotTwoLists,
    LengthsDiffer,
    CountsAstray,
    TooManyRanges,
    UnknownCombiner,
    BackwardRange,
    OverlappingRange,
}

impl Fault {
    pub const ALL: [Self; 8] = [
        Self::TooManyLists,
        Self::NotTwoLists,
        Self::LengthsDiffer,
        Self::CountsAstray,
        Self::TooManyRanges,
        Self::UnknownCombiner,
        Self::BackwardRange,
        Self::OverlappingRange,
    ];

    /// Whether a call of the operation can have the fault.
    fn can_befall(self, operation: Operation) -> bool {
        match self {
            Self::NotTwoLists => operation.is_two_way(),
            Self::UnknownCombiner => operation.combiner().is_some(),
            _ => true,
        }
    }
}

/// One fault, or now and then several at once.
pub fn malformed<T: Point>(seed: u64, number: u64) -> Case<T> {
    let random = &mut Random::of_case(seed, "malformed", number);
    let faults = if random.once_in(3) { several(random) } else { vec![random.pick(&Fault::ALL)] };
    let (mut call, answer) = call_with(random, &faults, USUAL);
    give_room(random, &mut call);
    Case { number, call, due: Due::Refused(answer) }
}

/// Every refusal of every operation by itself: each fault that can befall it, and too little room.
pub fn each_refusal<T: Point>(seed: u64) -> Vec<Case<T>> {
    let random = &mut Random::of_case(seed, "each refusal", 0);
    let mut cases = Vec::new();
    for operation in Operation::ALL {
        for fault in Fault::ALL.into_iter().filter(|fault| fault.can_befall(operation)) {
            let (mut call, answer) = call_of(random, operation, &[fault], USUAL);
            give_room(random, &mut call);
            cases.push((call, Due::Refused(answer)));
        }
        cases.push((one_place_short(random, operation), Due::TheCrate));
    }
    let case = |((call, due), number)| Case { number, call, due };
    cases.into_iter().zip(0..).map(case).collect()
}

fn give_room<T: Point>(random: &mut Random, call: &mut Call<T>) {
    let room = random.below(most_pieces(&call.lent));
    call.columns = uneven_columns(random, call.operation, room);
}

/// Some of the faults; at least one that can befall every operation.
pub fn several(random: &mut Random) -> Vec<Fault> {
    let chosen = |&fault: &Fault| fault == Fault::BackwardRange || random.once_in(3);
    Fault::ALL.into_iter().filter(chosen).collect()
}

/// A call without room that has those of the faults that can befall it, and the refusal due.
pub fn call_with<T: Point>(random: &mut Random, faults: &[Fault], size: Size) -> (Call<T>, Answer) {
    let befallen = |operation: &Operation| faults.iter().any(|fault| fault.can_befall(*operation));
    let operations: Vec<_> = Operation::ALL.into_iter().filter(befallen).collect();
    let operation = random.pick(&operations);
    call_of(random, operation, faults, size)
}

/// The same for one operation, which one of the faults can befall.
fn call_of<T: Point>(
    random: &mut Random,
    operation: Operation,
    faults: &[Fault],
    size: Size,
) -> (Call<T>, Answer) {
    let lent = sound_lists(random, operation, faults.contains(&Fault::TooManyRanges), size);
    let columns = uneven_columns(random, operation, 0);
    let mut call = Call { operation, lent, columns };
    let mut due = None;
    for &fault in faults.iter().rev().filter(|fault| fault.can_befall(operation)) {
        let planted = plant(random, fault, &mut call);
        due = match due {
            Some(overlap) if fault == Fault::BackwardRange => Some(earlier(planted, overlap)),
            _ => Some(planted),
        };
    }
    (call, due.expect("a fault befalls the operation"))
}

/// The refusal of a backward and of an overlapping range: the lower place, and 5 before 6.
fn earlier(backward: Answer, overlap: Answer) -> Answer {
    if overlap.number < backward.number { overlap } else { backward }
}

/// Well-formed lists, one of them of two ranges at least.
fn sound_lists<T: Point>(
    random: &mut Random,
    operation: Operation,
    too_many: bool,
    size: Size,
) -> Lent<T> {
    loop {
        let lists = if too_many {
            let ranges = MOST_RANGES as u64 + random.pick(&[1, 1, 2, 60]);
            lists_of_ranges(random, operation, ranges)
        } else {
            lists(random, operation, size)
        };
        if lists.iter().any(|list| list.len() > 1) {
            return Lent::from_lists(&lists);
        }
    }
}

/// Plants one fault and tells the refusal it earns when nothing that is judged earlier is wrong.
fn plant<T: Point>(random: &mut Random, fault: Fault, call: &mut Call<T>) -> Answer {
    match fault {
        Fault::TooManyLists => add_empty_lists(random, &mut call.lent),
        Fault::NotTwoLists => leave_two_lists(random, &mut call.lent),
        Fault::LengthsDiffer => part_lengths(random, &mut call.lent),
        Fault::CountsAstray => miscount(random, &mut call.lent),
        Fault::TooManyRanges => Answer::new(3, 0),
        Fault::UnknownCombiner => {
            let combiner = random.pick(&[0, 6, 7, 17, 128, 255]);
            call.operation = call.operation.with_combiner(combiner);
            Answer::new(7, 0)
        }
        Fault::BackwardRange => turn_backward(random, &mut call.lent),
        Fault::OverlappingRange => overlap(random, &mut call.lent),
    }
}

fn add_empty_lists<T>(random: &mut Random, lent: &mut Lent<T>) -> Answer {
    let lists = MOST_LISTS + random.pick(&[1, 1, 2, 16, 240, 300]);
    lent.counts.resize(lists, 0);
    Answer::new(1, 0)
}

fn leave_two_lists<T>(random: &mut Random, lent: &mut Lent<T>) -> Answer {
    match random.below(3) {
        0 => lent.counts.clear(),
        1 => lent.counts = vec![lent.starts.len() as u32],
        _ => lent.counts.resize(random.between(3, MOST_LISTS as u64) as usize, 0),
    }
    Answer::new(2, 0)
}

/// Makes one or two of the three columns shorter or longer than the rest.
fn part_lengths<T: Point>(random: &mut Random, lent: &mut Lent<T>) -> Answer {
    let chosen = random.between(1, 6);
    let ranges = lent.starts.len().min(lent.ends.len()).min(lent.values.len());
    let length = if random.once_in(2) {
        ranges + random.between(1, 3) as usize
    } else {
        random.below(ranges as u64) as usize
    };
    for (bit, column) in [(1, &mut lent.starts), (2, &mut lent.ends)] {
        column.resize(if chosen & bit == 0 { ranges } else { length }, T::greatest());
    }
    lent.values.resize(if chosen & 4 == 0 { ranges } else { length }, 0);
    Answer::new(4, 0)
}

/// Makes the counts add up to too much or too little, or only when they are let wrap.
fn miscount<T>(random: &mut Random, lent: &mut Lent<T>) -> Answer {
    let lists = lent.counts.len();
    let list = random.below(lists as u64) as usize;
    let fullest = (0..lists).max_by_key(|&list| lent.counts[list]).expect("a list");
    match random.below(5) {
        0 => lent.counts[list] += 1,
        1 => lent.counts[fullest] -= 1,
        2 => lent.counts[list] = u32::MAX,
        3 => lent.counts.fill(u32::MAX),
        _ if lists == 1 => lent.counts[list] = 0,
        _ => {
            lent.counts[(list + 1) % lists] += lent.counts[list] + 1;
            lent.counts[list] = u32::MAX;
        }
    }
    Answer::new(4, 0)
}

/// Turns a range so that its start lies beyond its end; now and then a later one too.
fn turn_backward<T: Point>(random: &mut Random, lent: &mut Lent<T>) -> Answer {
    let last = lent.starts.len() - 1;
    let any = random.between(0, last as u64) as usize;
    let place = random.pick(&[0, last, any]);
    let later = random.between(place as u64, last as u64) as usize;
    for place in [place, later] {
        let end = random.below(T::GREATEST_KEY);
        let nearest = end + 1;
        let start =
            if random.once_in(2) { nearest } else { random.between(nearest, T::GREATEST_KEY) };
        lent.starts[place] = T::from_key(start);
        lent.ends[place] = T::from_key(end);
    }
    Answer::new(5, place)
}

/// Moves a range's start back to the end before it, or further.
fn overlap<T: Point>(random: &mut Random, lent: &mut Lent<T>) -> Answer {
    let seconds = lent.list_places().into_iter().flat_map(|places| places.skip(1));
    let seconds: Vec<usize> = seconds.collect();
    let ends = [seconds[0], seconds[seconds.len() - 1]];
    let place = if random.once_in(2) { random.pick(&ends) } else { random.pick(&seconds) };
    let before = lent.ends[place - 1].key();
    let start = if random.once_in(2) { before } else { random.between(0, before) };
    lent.starts[place] = T::from_key(start);
    Answer::new(6, place)
}
