//! Well-formed tariff files. A random one is repeatable from its seed and number.

use crate::boundary;
use crate::call::{Lent, MOST_LISTS, MOST_RANGES, Operation, Tariff};
use crate::case::Due;
use crate::file::case::{Case, Known};
use crate::file::reading::Request;
use crate::file::text;
use crate::file::writing::{OPERATIONS, written};
use crate::generator::{SMALL, Size, USUAL, lists, lists_of_ranges};
use crate::random::Random;

/// The file of 58 bytes that the format is told by.
pub const EXAMPLE: &[u8] = b"\
    JH\x05\x01\0\x02\
    JL\0\x01JR\0\0\0\0\0\0\0\x01\0\0\0\0\0\0\0\x05\0\0\0\x64\
    JL\0\x01JR\0\0\0\0\0\0\0\x05\0\0\0\0\0\0\0\x09\0\0\0\x14";

const EXAMPLE_TEXT: &str = "\
join 5 1 2 3
1 4 100
5 5 120
6 9 20
";

/// Requests of at most so many ranges are small.
const FEW: usize = 3;

/// The example, and the rows of the boundary sheet.
pub fn sheet() -> Vec<Case> {
    let example = Known::Text(EXAMPLE_TEXT);
    let mut cases = vec![Case { known: example, ..Case::of(EXAMPLE.to_vec()) }];
    for row in boundary::sheet() {
        let request = Request { operation: row.call.operation, lent: row.call.lent };
        if request.operation == Operation::Events {
            continue;
        }
        let file = written(&request);
        let known = match row.due {
            Due::Refused(answer) => Known::Refused(answer),
            _ => Known::Request(request),
        };
        cases.push(Case { known, ..Case::of(file) });
    }
    cases
}

/// The file of a request, which is well formed.
pub fn sound(request: Request) -> Case {
    let file = written(&request);
    Case { known: Known::Request(request), ..Case::of(file) }
}

pub fn request(random: &mut Random, operation: Operation, size: Size) -> Request {
    Request { operation, lent: Lent::from_lists(&lists(random, operation, size)) }
}

/// A request whose lists hold exactly so many ranges together.
pub fn request_of_ranges(random: &mut Random, operation: Operation, ranges: u64) -> Request {
    Request { operation, lent: Lent::from_lists(&lists_of_ranges(random, operation, ranges)) }
}

/// A request of a few ranges.
fn small_request(random: &mut Random, operation: Operation) -> Request {
    loop {
        let request = request(random, operation, SMALL);
        if request.lent.starts.len() <= FEW {
            return request;
        }
    }
}

/// So many small requests of each operation, and one without lists.
pub fn small_requests(seed: u64, of_each: usize) -> Vec<Request> {
    let of_none = Request { operation: Operation::Inner(1), lent: Lent::from_lists(&[]) };
    let small = |number: usize| {
        let random = &mut Random::of_case(seed, "small request", number as u64);
        small_request(random, OPERATIONS[number % OPERATIONS.len()])
    };
    (0..of_each * OPERATIONS.len()).map(small).chain([of_none]).collect()
}

/// Random lists under a random operation.
pub fn well_formed(seed: u64, number: u64) -> Case {
    let random = &mut Random::of_case(seed, "well-formed file", number);
    let operation = random.pick(OPERATIONS);
    sound(request(random, operation, USUAL))
}

/// As many ranges as a file can have, or nearly, under each operation in turn.
pub fn crowded(seed: u64, number: u64) -> Case {
    let random = &mut Random::of_case(seed, "crowded file", number);
    let operation = OPERATIONS[number as usize % OPERATIONS.len()];
    let ranges = MOST_RANGES as u64 - random.pick(&[0, 0, 1, 1000]);
    sound(request_of_ranges(random, operation, ranges))
}

/// Small files, some of them cut short, with every room from none to a byte more than the text has,
/// one room a case.
pub fn every_room(seed: u64, cases: u64) -> impl Iterator<Item = Case> {
    let with_rooms = move |base: u64| {
        let random = &mut Random::of_case(seed, "room of a file", base);
        let operation = random.pick(OPERATIONS);
        let mut file = written(&request(random, operation, SMALL));
        if random.once_in(4) {
            file.truncate(random.below(file.len() as u64) as usize);
        }
        let most = text::due(&file).len() + 1;
        (0..=most).map(move |room| Case { room: Some(room), ..Case::of(file.clone()) })
    };
    (0..).flat_map(with_rooms).take(cases as usize)
}

/// The request of a file of the greatest length: sixteen lists with as many ranges as are allowed,
/// of one point each and touching, so that few pieces come of them.
pub fn longest(operation: Operation) -> Request {
    let ranges = MOST_RANGES / MOST_LISTS;
    let list = |list: usize| {
        let first = (list * ranges / 2) as i64;
        let tariff = |point| Tariff { start: point, end: point, value: list as i32 };
        (first..first + ranges as i64).map(tariff).collect()
    };
    Request { operation, lent: Lent::from_lists(&(0..MOST_LISTS).map(list).collect::<Vec<_>>()) }
}

/// The request of the longest text: as many pieces as there can be, in numbers as long as can be.
pub fn longest_text() -> Request {
    let list = |first: i64| {
        let tariff = |place: i64| {
            let start = i64::MIN + first + 4 * place;
            Tariff { start, end: start + 2, value: i32::MIN }
        };
        (0..MOST_RANGES as i64 / 2).map(tariff).collect()
    };
    Request { operation: Operation::TwoWayFull, lent: Lent::from_lists(&[list(0), list(2)]) }
}
