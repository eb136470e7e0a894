//! The boundary sheet of the rules, its answers copied out by hand.

use crate::call::{Answer, Call, Lent, Operation, Pieces, Point, Priced, Sides, Tariff};
use crate::case::{Case, Due};
use crate::generator::even_columns;
use crate::random::Random;

const ROOM: u64 = 6;

/// A list as start, end and value.
type Rows = &'static [(u64, u64, i32)];

/// The two lists that most rows of the sheet are about.
const INSIDE: [Rows; 2] = [&[(1, 10, 100)], &[(3, 4, 7), (5, 6, 7)]];
const SHARING_FIVE: [Rows; 2] = [&[(1, 5, 100)], &[(5, 9, 20)]];

/// The rows of the sheet, in its order.
pub fn sheet<T: Point>() -> Vec<Case<T>> {
    let rows = [two_way(), many_way(), at_the_greatest(), refused()].concat();
    let case = |(number, (operation, lists, due)): (usize, Row<T>)| {
        let random = &mut Random::of_case(0, "boundary sheet", number as u64);
        let columns = even_columns(random, operation, ROOM);
        let call = Call { operation, lent: Lent::from_lists(&lists), columns };
        Case { number: number as u64, call, due }
    };
    rows.into_iter().enumerate().map(case).collect()
}

type Row<T> = (Operation, Vec<Vec<Tariff<T>>>, Due<T>);

fn two_way<T: Point>() -> Vec<Row<T>> {
    let both = |start, end, left, right| sides(start, end, Some(left), Some(right));
    let left = |start, end, value| sides(start, end, Some(value), None);
    let right = |start, end, value| sides(start, end, None, Some(value));
    let due = |pieces| Due::Sheet(Pieces::Sides(pieces));
    let inner = vec![both(3, 4, 100, 7), both(5, 6, 100, 7)];
    let left_join = vec![left(1, 2, 100), both(3, 4, 100, 7), both(5, 6, 100, 7), left(7, 10, 100)];
    let full = vec![left(1, 4, 100), both(5, 5, 100, 20), right(6, 9, 20)];
    vec![
        (Operation::TwoWayInner, lists(&INSIDE), due(inner)),
        (Operation::TwoWayLeft, lists(&INSIDE), due(left_join)),
        (Operation::TwoWayFull, lists(&SHARING_FIVE), due(full)),
        (Operation::TwoWayInner, lists(&[&[(1, 5, 100)], &[]]), due(vec![])),
    ]
}

fn many_way<T: Point>() -> Vec<Row<T>> {
    let due = |pieces: &[(u64, u64, i64)]| {
        let piece =
            |&(start, end, value): &(u64, u64, i64)| priced(point(start), point(end), value);
        Due::Sheet(Pieces::Priced(pieces.iter().map(piece).collect()))
    };
    let changing: [Rows; 2] = [&[(1, 5, 10), (6, 9, 11)], &[(1, 9, 1)]];
    let mean: [Rows; 2] = [&[(1, 5, -3)], &[(1, 5, 0)]];
    vec![
        (Operation::Inner(1), lists(&INSIDE), due(&[(3, 6, 107)])),
        (Operation::Union, lists(&SHARING_FIVE), due(&[(1, 4, 100), (5, 9, 20)])),
        (Operation::SymmetricDifference, lists(&SHARING_FIVE), due(&[(1, 4, 100), (6, 9, 20)])),
        (Operation::Inner(1), lists(&changing), due(&[(1, 5, 11), (6, 9, 12)])),
        (Operation::Full(1), lists(&[]), due(&[])),
        (Operation::Full(1), lists(&[&[(1, 2, 5), (4, 5, 5)]]), due(&[(1, 2, 5), (4, 5, 5)])),
        (Operation::Full(1), lists(&[&[(1, 2, 5), (3, 4, 5)]]), due(&[(1, 4, 5)])),
        (Operation::Full(5), lists(&mean), due(&[(1, 5, -1)])),
        (Operation::Inner(1), lists(&[&[(1, 5, 100)], &[]]), due(&[])),
    ]
}

fn at_the_greatest<T: Point>() -> Vec<Row<T>> {
    let last = T::greatest();
    let six_before = T::from_key(T::GREATEST_KEY - 5);
    let everywhere = vec![priced(T::least(), last, 0)];
    let shared = vec![priced(last, last, 11)];
    let at_the_end = vec![
        vec![Tariff { start: six_before, end: last, value: 5 }],
        vec![Tariff { start: last, end: last, value: 6 }],
    ];
    vec![
        (Operation::Inner(1), vec![], Due::Sheet(Pieces::Priced(everywhere))),
        (Operation::Inner(1), at_the_end, Due::Sheet(Pieces::Priced(shared))),
    ]
}

/// One list under every operation, with an empty one beside it where there must be two.
fn refused<T: Point>() -> Vec<Row<T>> {
    let row = |operation: Operation, list: Rows, answer| {
        let set: &[Rows] = if operation.is_two_way() { &[list, &[]] } else { &[list] };
        (operation, lists(set), Due::Refused(answer))
    };
    let rows = |operation| {
        let overlapping = row(operation, &[(1, 5, 0), (5, 9, 0)], Answer::new(6, 1));
        let backward = row(operation, &[(1, 5, 0), (3, 2, 0)], Answer::new(5, 1));
        [overlapping, backward]
    };
    Operation::ALL.into_iter().flat_map(rows).collect()
}

fn point<T: Point>(number: u64) -> T {
    T::from_key(T::ZERO_KEY + number)
}

fn lists<T: Point>(lists: &[Rows]) -> Vec<Vec<Tariff<T>>> {
    let tariff = |&(start, end, value): &(u64, u64, i32)| Tariff {
        start: point(start),
        end: point(end),
        value,
    };
    lists.iter().map(|list| list.iter().map(tariff).collect()).collect()
}

fn sides<T: Point>(start: u64, end: u64, left: Option<i32>, right: Option<i32>) -> Sides<T> {
    Sides { start: point(start), end: point(end), left, right }
}

fn priced<T: Point>(start: T, end: T, value: i64) -> Priced<T> {
    Priced { start, end, value }
}
