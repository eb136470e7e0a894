//! The fixed list of the oracle's answers, as it stands in `answers.txt`.

use crate::call::{Call, Lent, MOST_RANGES, Operation, Outcome, Point, Tariff};
use crate::case::{Case, Due};
use crate::faults::{Fault, call_with, several};
use crate::generator::{SMALL, even_columns, lists, most_pieces};
use crate::random::Random;
use crate::{blaze_side, boundary, reading, text};

const SEED: u64 = 1;
const FILE: &str = concat!(env!("CARGO_MANIFEST_DIR"), "/answers.txt");

const HEAD: &str = "\
# The oracle's answers, as `tools/compare answers` prints them.
# Well-formed lists went through the iterators of range-set-blaze 0.8.0; refusals 1 to 7 come
# from the reading of the rules. The cases are the boundary sheet and random ones of a fixed
# seed, of both widths.
#
# A case is a block of lines, and an empty line follows each block. A line is a name and its
# numbers in decimal, with one space before each number; a column without numbers is its name
# alone. Lines that begin with # are remarks. The lines of a block are, in this order:
#   case       its number, from 1
#   operation  events, two_way_inner, two_way_left, two_way_full, inner, full, union or
#              symmetric_difference
#   combiner   of inner and full; else 0
#   width      u32 or i64, of the points
#   room       the length of every output column
#   counts, starts, ends, values    the lent columns
#   code, number                    the answer
# and then what is written at the front of each output column, nothing where the code is not 0:
#   events: kind, point, list, value
#   two-way: start, end, left, right, presence
#   others: start, end, value

";

/// The whole list as text.
pub fn text() -> String {
    let (seats, instants) = (cases::<u32>(), cases::<i64>());
    let blocks = seats.iter().map(block).chain(instants.iter().map(block));
    let numbered = blocks.zip(1..).map(|(block, number)| format!("case {number}\n{block}\n"));
    numbered.fold(HEAD.to_string(), |text, block| text + &block)
}

/// Holds the file against the text. Tells where the two part.
pub fn compare_with_file() -> Result<(), String> {
    let due = text();
    let found = std::fs::read_to_string(FILE).map_err(|error| format!("answers.txt: {error}"))?;
    if found == due {
        return Ok(());
    }
    let same = due.lines().zip(found.lines()).take_while(|(due, found)| due == found).count();
    let line = |text: &str| text.lines().nth(same).unwrap_or("no line").to_string();
    let (due, found, line_number) = (line(&due), line(&found), same + 1);
    let at = format!("a difference in answers.txt, line {line_number}");
    Err(format!("{at}\n\ndue:\n{due}\n\nfound:\n{found}\n"))
}

/// The cases of one width. The crate's outcome is due, or the reading's refusal where the call is
/// refused before any piece is found.
pub fn cases<T: Point>() -> Vec<Case<T>> {
    let mut calls: Vec<Call<T>> = boundary::sheet().into_iter().map(|case| case.call).collect();
    calls.extend((0..60).map(ample));
    calls.extend((0..24).map(close_to_full));
    calls.extend([ladder(MOST_RANGES), ladder(MOST_RANGES + 1)]);
    calls.extend((0..48).map(refused));
    let case = |(call, number): (Call<T>, u64)| {
        let due = reading::refusal(call.operation, &call.lent).map_or(Due::TheCrate, Due::Refused);
        Case { number, call, due }
    };
    calls.into_iter().zip(0..).map(case).collect()
}

fn block<T: Point>(Case { call, due, .. }: &Case<T>) -> String {
    let outcome = match due {
        Due::Refused(answer) => Outcome { answer: *answer, columns: call.columns.clone() },
        _ => blaze_side::outcome(call),
    };
    let places = if outcome.answer.code == 0 { outcome.answer.number } else { 0 };
    text::call_lines(call) + &text::outcome_lines(&outcome, places as usize)
}

/// Well-formed lists with room enough, each operation in turn.
fn ample<T: Point>(number: usize) -> Call<T> {
    let random = &mut Random::of_case(SEED, "ample", number as u64);
    let operation = Operation::ALL[number % Operation::ALL.len()];
    let lent = Lent::from_lists(&lists(random, operation, SMALL));
    let columns = even_columns(random, operation, most_pieces(&lent));
    Call { operation, lent, columns }
}

/// Well-formed lists with room for the pieces needed, one less or one more.
fn close_to_full<T: Point>(number: usize) -> Call<T> {
    let random = &mut Random::of_case(SEED, "close to full", number as u64);
    let operation = random.pick(&Operation::ALL);
    let lent = Lent::from_lists(&lists(random, operation, SMALL));
    let needed = blaze_side::pieces(operation, &lent).count() as u64;
    let room = (needed + number as u64 % 3).saturating_sub(1);
    let columns = even_columns(random, operation, room);
    Call { operation, lent, columns }
}

/// So many ranges of one point each in a single list, each touching the next.
fn ladder<T: Point>(ranges: usize) -> Call<T> {
    let point = |place: usize| T::from_key(T::ZERO_KEY + place as u64);
    let tariff = |place| Tariff { start: point(place), end: point(place), value: 1 };
    let lent = Lent::from_lists(&[(0..ranges).map(tariff).collect()]);
    let operation = Operation::Full(1);
    let columns = even_columns(&mut Random::of_case(SEED, "ladder", 0), operation, 1);
    Call { operation, lent, columns }
}

/// Malformed calls: each fault in turn, save the ladder's, and now and then several at once.
fn refused<T: Point>(number: usize) -> Call<T> {
    let random = &mut Random::of_case(SEED, "refused", number as u64);
    let fault = Fault::ALL[number % Fault::ALL.len()];
    let faults = if fault == Fault::TooManyRanges { several(random) } else { vec![fault] };
    let faults: Vec<_> =
        faults.into_iter().filter(|&fault| fault != Fault::TooManyRanges).collect();
    let (mut call, _) = call_with(random, &faults, SMALL);
    let room = random.below(most_pieces(&call.lent));
    call.columns = even_columns(random, call.operation, room);
    call
}
