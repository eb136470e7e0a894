//! Well-formed lists through the crate's own iterators.

use core::ops::RangeInclusive;

use crate::blaze::{
    FullJoinMap, InnerJoinMap, LeftJoinMap, MultiwayFullJoinMap, MultiwayInnerJoinMap,
    MultiwaySymmetricDifferenceMap, MultiwayUnionMap, SymmetricDifferenceMap, UnionMap,
};
use crate::call::{
    Answer, Call, Columns, Event, Lent, Operation, Outcome, Pieces, Point, Priced, Sides,
};
use crate::map::ValueCarrier;
use crate::scaffold::UncheckedList;
use crate::{MultiwaySweep, Owned, SweepEvent};

/// What takes the pieces of one operation as the crate's iterators yield them.
trait Sink<T> {
    fn event(&mut self, piece: Event<T>);
    fn sides(&mut self, piece: Sides<T>);
    fn priced(&mut self, piece: Priced<T>);
}

/// The outcome of a call whose lists are well formed and whose combiner is known.
pub fn outcome<T: Point>(call: &Call<T>) -> Outcome<T> {
    let count = pieces(call.operation, &call.lent).count();
    let mut columns = call.columns.clone();
    let fits = count <= columns.room();
    if fits {
        drain(call.operation, &call.lent, &mut columns);
    }
    Outcome { answer: Answer::new(if fits { 0 } else { 8 }, count), columns }
}

/// The pieces that the crate's iterator yields.
pub fn yielded<T: Point>(operation: Operation, lent: &Lent<T>) -> Pieces<T> {
    let mut pieces = Pieces::of(operation);
    run(operation, lists(lent), &mut pieces);
    pieces
}

/// The same pieces. Over two lists the crate's two-list forms of the selections must say the same.
pub fn pieces<T: Point>(operation: Operation, lent: &Lent<T>) -> Pieces<T> {
    let pieces = yielded(operation, lent);
    if let Ok([left, right]) = <[_; 2]>::try_from(lists(lent)) {
        let of_two: Option<Vec<_>> = match operation {
            Operation::Union => Some(UnionMap::new2(left, right).map(selected).collect()),
            Operation::SymmetricDifference => {
                Some(SymmetricDifferenceMap::new2(left, right).map(selected).collect())
            }
            _ => None,
        };
        if let Some(of_two) = of_two {
            assert_eq!(Pieces::Priced(of_two), pieces, "the crate's two selections differ");
        }
    }
    pieces
}

/// Drains the crate's iterator into columns that have room for all of it.
pub fn drain<T: Point>(operation: Operation, lent: &Lent<T>, columns: &mut Columns<T>) {
    run(operation, lists(lent), &mut Written { columns, place: 0 });
}

/// Runs the crate's iterator of an operation to its end.
fn run<T: Point>(operation: Operation, lists: Vec<UncheckedList<'_, T>>, sink: &mut impl Sink<T>) {
    match operation {
        Operation::Events => MultiwaySweep::new(lists).for_each(|piece| sink.event(event(piece))),
        Operation::Inner(combiner) => {
            let combine = |values: &[Owned<i32>]| combined(combiner, values.iter().copied());
            MultiwayInnerJoinMap::new(lists, combine).for_each(|piece| sink.priced(priced(piece)));
        }
        Operation::Full(combiner) => {
            let combine = |values: &[Option<Owned<i32>>]| {
                combined(combiner, values.iter().flatten().copied())
            };
            MultiwayFullJoinMap::new(lists, combine).for_each(|piece| sink.priced(priced(piece)));
        }
        Operation::Union => {
            MultiwayUnionMap::new_k(lists).for_each(|piece| sink.priced(selected(piece)));
        }
        Operation::SymmetricDifference => MultiwaySymmetricDifferenceMap::new_k(lists)
            .for_each(|piece| sink.priced(selected(piece))),
        Operation::TwoWayInner | Operation::TwoWayLeft | Operation::TwoWayFull => {
            let [left, right] = <[_; 2]>::try_from(lists).expect("two lists");
            run_two_way(operation, left, right, sink);
        }
    }
}

fn run_two_way<T: Point>(
    operation: Operation,
    left: UncheckedList<'_, T>,
    right: UncheckedList<'_, T>,
    sink: &mut impl Sink<T>,
) {
    match operation {
        Operation::TwoWayInner => InnerJoinMap::new(left, right)
            .for_each(|(range, (left, right))| sink.sides(sides(range, Some(left), Some(right)))),
        Operation::TwoWayLeft => LeftJoinMap::new(left, right)
            .for_each(|(range, (left, right))| sink.sides(sides(range, Some(left), right))),
        _ => FullJoinMap::new(left, right)
            .for_each(|(range, (left, right))| sink.sides(sides(range, left, right))),
    }
}

fn lists<T: Point>(lent: &Lent<T>) -> Vec<UncheckedList<'_, T>> {
    let list = |places: core::ops::Range<usize>| UncheckedList {
        starts: &lent.starts[places.clone()],
        ends: &lent.ends[places.clone()],
        values: &lent.values[places],
    };
    lent.list_places().into_iter().map(list).collect()
}

/// The numbered combiners as what a caller of the crate would pass in a closure.
fn combined(combiner: u8, carried: impl Iterator<Item = Owned<i32>>) -> i64 {
    let values = carried.map(|value| i64::from(value.into_value()));
    match combiner {
        1 => values.sum(),
        2 => values.max().unwrap_or(0),
        3 => values.min().unwrap_or(0),
        4 => values.count() as i64,
        5 => {
            let (sum, count) = values.fold((0, 0), |(sum, count), value| (sum + value, count + 1));
            if count == 0 { 0 } else { sum / count }
        }
        _ => panic!("combiner {combiner} is unknown"),
    }
}

fn event<T: Point>(event: SweepEvent<T, Owned<i32>>) -> Event<T> {
    match event {
        SweepEvent::Start { range, input, value } => {
            Event { kind: 0, point: *range.start(), list: input as u8, value: value.into_value() }
        }
        SweepEvent::End { at, input } => Event { kind: 1, point: at, list: input as u8, value: 0 },
    }
}

fn sides<T: Point>(
    range: RangeInclusive<T>,
    left: Option<Owned<i32>>,
    right: Option<Owned<i32>>,
) -> Sides<T> {
    let (start, end) = range.into_inner();
    let left = left.map(Owned::into_value);
    let right = right.map(Owned::into_value);
    Sides { start, end, left, right }
}

fn priced<T: Point>((range, value): (RangeInclusive<T>, Owned<i64>)) -> Priced<T> {
    let (start, end) = range.into_inner();
    Priced { start, end, value: value.into_value() }
}

fn selected<T: Point>((range, value): (RangeInclusive<T>, Owned<i32>)) -> Priced<T> {
    let (start, end) = range.into_inner();
    Priced { start, end, value: i64::from(value.into_value()) }
}

fn presence<T>(piece: &Sides<T>) -> u8 {
    match (piece.left, piece.right) {
        (None, None) => 0,
        (Some(_), None) => 1,
        (None, Some(_)) => 2,
        (Some(_), Some(_)) => 3,
    }
}

impl<T> Sink<T> for Pieces<T> {
    fn event(&mut self, piece: Event<T>) {
        if let Self::Events(pieces) = self {
            pieces.push(piece);
        }
    }

    fn sides(&mut self, piece: Sides<T>) {
        if let Self::Sides(pieces) = self {
            pieces.push(piece);
        }
    }

    fn priced(&mut self, piece: Priced<T>) {
        if let Self::Priced(pieces) = self {
            pieces.push(piece);
        }
    }
}

/// Columns, and the place for the next piece.
struct Written<'a, T> {
    columns: &'a mut Columns<T>,
    place: usize,
}

impl<T: Point> Sink<T> for Written<'_, T> {
    fn event(&mut self, piece: Event<T>) {
        if let Columns::Events { kinds, points, lists, values } = self.columns {
            kinds[self.place] = piece.kind;
            points[self.place] = piece.point;
            lists[self.place] = piece.list;
            values[self.place] = piece.value;
            self.place += 1;
        }
    }

    fn sides(&mut self, piece: Sides<T>) {
        if let Columns::Sides { starts, ends, lefts, rights, presences } = self.columns {
            starts[self.place] = piece.start;
            ends[self.place] = piece.end;
            lefts[self.place] = piece.left.unwrap_or(0);
            rights[self.place] = piece.right.unwrap_or(0);
            presences[self.place] = presence(&piece);
            self.place += 1;
        }
    }

    fn priced(&mut self, piece: Priced<T>) {
        if let Columns::Priced { starts, ends, values } = self.columns {
            starts[self.place] = piece.start;
            ends[self.place] = piece.end;
            values[self.place] = piece.value;
            self.place += 1;
        }
    }
}
