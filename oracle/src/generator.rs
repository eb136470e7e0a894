//! Random well-formed calls. A case is repeatable from its seed and number.

use crate::blaze_side;
use crate::call::{Call, Columns, Lent, MOST_LISTS, MOST_RANGES, Operation, Point, Tariff};
use crate::case::{Case, Due};
use crate::random::Random;

/// The most lists of a call, and the most ranges of each.
#[derive(Clone, Copy)]
pub struct Size {
    pub lists: u64,
    pub ranges: u64,
}

pub const USUAL: Size = Size { lists: MOST_LISTS as u64, ranges: 8 };
pub const SMALL: Size = Size { lists: 4, ranges: 3 };

/// Where a set of lists lies on the line, and how its ranges are strewn there.
struct Spread {
    first_key: u64,
    last_key: u64,
    widest_gap: u64,
    longest_range: u64,
}

/// Random lists under a random operation, sometimes with too little room.
pub fn well_formed<T: Point>(seed: u64, number: u64) -> Case<T> {
    let random = &mut Random::of_case(seed, "well formed", number);
    let operation = random.pick(&Operation::ALL);
    well_formed_of(random, operation, number)
}

/// Random lists whose events are listed, sometimes with too little room.
pub fn listed<T: Point>(seed: u64, number: u64) -> Case<T> {
    well_formed_of(&mut Random::of_case(seed, "listed", number), Operation::Events, number)
}

fn well_formed_of<T: Point>(random: &mut Random, operation: Operation, number: u64) -> Case<T> {
    let lent = Lent::from_lists(&lists(random, operation, USUAL));
    let room = most_pieces(&lent);
    let room = if random.once_in(8) { random.below(room) } else { room };
    let columns = uneven_columns(random, operation, room);
    Case { number, call: Call { operation, lent, columns }, due: Due::TheCrate }
}

/// As many ranges as the rules allow, or nearly.
pub fn crowded<T: Point>(seed: u64, number: u64) -> Case<T> {
    let random = &mut Random::of_case(seed, "crowded", number);
    let operation = random.pick(&Operation::ALL);
    let ranges = MOST_RANGES as u64 - random.pick(&[0, 0, 1, 1000]);
    let lent = Lent::from_lists(&lists_of_ranges(random, operation, ranges));
    let columns = uneven_columns(random, operation, most_pieces(&lent));
    Case { number, call: Call { operation, lent, columns }, due: Due::TheCrate }
}

/// Small lists with every room from none to more than can be needed, one room a case.
pub fn every_room<T: Point>(seed: u64, cases: u64) -> impl Iterator<Item = Case<T>> {
    let with_rooms = move |base: u64| {
        let random = &mut Random::of_case(seed, "rooms", base);
        let operation = random.pick(&Operation::ALL);
        let lent: Lent<T> = Lent::from_lists(&lists(random, operation, SMALL));
        let call = |room| {
            let columns = uneven_columns(random, operation, room);
            Call { operation, lent: lent.clone(), columns }
        };
        (0..=most_pieces(&lent)).map(call).collect::<Vec<_>>()
    };
    (0..).flat_map(with_rooms).zip(0..cases).map(|(call, number)| Case {
        number,
        call,
        due: Due::TheCrate,
    })
}

/// Small lists that give a piece at least, with one place less than their pieces need.
pub fn one_place_short<T: Point>(random: &mut Random, operation: Operation) -> Call<T> {
    loop {
        let lent = Lent::from_lists(&lists(random, operation, SMALL));
        let needed = blaze_side::pieces(operation, &lent).count() as u64;
        if needed > 0 {
            let columns = uneven_columns(random, operation, needed - 1);
            return Call { operation, lent, columns };
        }
    }
}

/// More pieces than any operation needs over these lists.
pub fn most_pieces<T>(lent: &Lent<T>) -> u64 {
    2 * lent.starts.len() as u64 + 1
}

/// Random well-formed lists, as many as the operation takes.
pub fn lists<T: Point>(
    random: &mut Random,
    operation: Operation,
    size: Size,
) -> Vec<Vec<Tariff<T>>> {
    let count = match random.below(8) {
        _ if operation.is_two_way() => 2,
        0 => random.below(2),
        1..=3 => 2,
        4..=6 => random.between(2, 5.min(size.lists)),
        _ => random.between(2, size.lists),
    };
    let spread = spread::<T>(random);
    let values = palette(random);
    let list = |_| {
        let ranges = if random.once_in(8) { 0 } else { random.between(1, size.ranges) };
        list(random, &spread, &values, ranges)
    };
    (0..count).map(list).collect()
}

/// Well-formed lists that hold exactly so many ranges together.
pub fn lists_of_ranges<T: Point>(
    random: &mut Random,
    operation: Operation,
    ranges: u64,
) -> Vec<Vec<Tariff<T>>> {
    let count = if operation.is_two_way() { 2 } else { random.pick(&[1, 2, 5, 16]) };
    let values = palette(random);
    let (widest_gap, longest_range) = (random.between(1, 3), random.between(1, 6));
    let points = ranges * (widest_gap + longest_range);
    let first_key = anchor::<T>(random, points);
    let spread =
        Spread { first_key, last_key: first_key + (points - 1), widest_gap, longest_range };
    let list = |index| {
        let share = ranges / count + u64::from(index < ranges % count);
        list(random, &spread, &values, share)
    };
    (0..count).map(list).collect()
}

fn spread<T: Point>(random: &mut Random) -> Spread {
    if random.once_in(3) {
        return Spread {
            first_key: 0,
            last_key: T::GREATEST_KEY,
            widest_gap: T::GREATEST_KEY >> random.between(1, 12),
            longest_range: T::GREATEST_KEY >> random.below(12),
        };
    }
    let points = random.between(4, 40);
    let first_key = anchor::<T>(random, points);
    Spread {
        first_key,
        last_key: first_key + (points - 1),
        widest_gap: random.between(1, 3),
        longest_range: random.between(1, 6),
    }
}

/// The first key of a short line: at the least point, about the middle, up to the greatest point,
/// or anywhere.
fn anchor<T: Point>(random: &mut Random, points: u64) -> u64 {
    let highest = T::GREATEST_KEY - (points - 1);
    match random.below(4) {
        0 => 0,
        1 => T::GREATEST_KEY / 2 - points / 2,
        2 => highest,
        _ => random.between(0, highest),
    }
}

/// The values of one case: few, so that neighbours are often equal; the ends of i32; or any.
fn palette(random: &mut Random) -> Vec<i32> {
    match random.below(4) {
        0 => vec![7],
        1 => vec![-3, 0, 1, 2],
        2 => vec![i32::MIN, i32::MIN + 1, -1, 0, 1, i32::MAX - 1, i32::MAX],
        _ => (0..6).map(|_| random.word() as i32).collect(),
    }
}

/// A list of so many ranges, or of as many as its spread has place for. Half of them touch the
/// one before; some lists reach out to the ends of the line.
fn list<T: Point>(
    random: &mut Random,
    spread: &Spread,
    values: &[i32],
    ranges: u64,
) -> Vec<Tariff<T>> {
    let mut list = Vec::new();
    let mut free = Some(spread.first_key);
    while let Some(from) = free
        && (list.len() as u64) < ranges
    {
        let gap = if random.once_in(2) { 0 } else { random.between(0, spread.widest_gap) };
        let Some(start) = from.checked_add(gap).filter(|&key| key <= spread.last_key) else {
            break;
        };
        let longest = start.saturating_add(random.below(spread.longest_range));
        let end = longest.min(spread.last_key);
        let value = random.pick(values);
        list.push(Tariff { start: T::from_key(start), end: T::from_key(end), value });
        free = end.checked_add(1);
    }
    reach_the_ends(random, &mut list);
    list
}

fn reach_the_ends<T: Point>(random: &mut Random, list: &mut [Tariff<T>]) {
    if let Some(first) = list.first_mut()
        && random.once_in(8)
    {
        first.start = T::least();
    }
    if let Some(last) = list.last_mut()
        && random.once_in(8)
    {
        last.end = T::greatest();
    }
}

/// Output columns of which the shortest, any of them, has this length.
pub fn uneven_columns<T: Point>(
    random: &mut Random,
    operation: Operation,
    room: u64,
) -> Columns<T> {
    let shortest = random.below(operation.column_count() as u64) as usize;
    let longer_by = random.below(2);
    let mut lengths = [0; 5].map(|_| room + longer_by + random.below(3));
    lengths[shortest] = room;
    columns(random, operation, lengths)
}

/// Output columns of one length.
pub fn even_columns<T: Point>(random: &mut Random, operation: Operation, room: u64) -> Columns<T> {
    columns(random, operation, [room; 5])
}

/// Output columns of the given lengths, filled with whatever stood there before.
fn columns<T: Point>(random: &mut Random, operation: Operation, lengths: [u64; 5]) -> Columns<T> {
    let [first, second, third, fourth, fifth] = lengths;
    match operation {
        Operation::Events => Columns::Events {
            kinds: filled(random, first, |word| word as u8),
            points: filled(random, second, T::from_key),
            lists: filled(random, third, |word| word as u8),
            values: filled(random, fourth, |word| word as i32),
        },
        Operation::TwoWayInner | Operation::TwoWayLeft | Operation::TwoWayFull => Columns::Sides {
            starts: filled(random, first, T::from_key),
            ends: filled(random, second, T::from_key),
            lefts: filled(random, third, |word| word as i32),
            rights: filled(random, fourth, |word| word as i32),
            presences: filled(random, fifth, |word| word as u8),
        },
        _ => Columns::Priced {
            starts: filled(random, first, T::from_key),
            ends: filled(random, second, T::from_key),
            values: filled(random, third, |word| word as i64),
        },
    }
}

fn filled<N>(random: &mut Random, length: u64, number: impl Fn(u64) -> N) -> Vec<N> {
    (0..length).map(|_| number(random.word())).collect()
}
