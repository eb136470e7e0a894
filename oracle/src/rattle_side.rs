//! Calls of the proved library through the package that hosts use: over lent columns, and from
//! lists to vectors.

use guineatwirl::{
    Combiner, EventColumns, LentLists, Pair, PairColumns, Piece, PieceColumns, Refusal, lent,
};

use crate::call::{
    Answer, Call, Columns, Event, Lent, Operation, Outcome, Pieces, Point, Priced, Sides,
};
use crate::reading;

/// A point that the library has operations for.
pub trait Proved: Point + guineatwirl::Point {}

impl<T: Point + guineatwirl::Point> Proved for T {}

/// The outcome of a call over lent columns.
pub fn outcome<T: Proved>(call: &Call<T>) -> Outcome<T> {
    let mut columns = call.columns.clone();
    let answer = answer(call.operation, &call.lent, &mut columns);
    Outcome { answer, columns }
}

/// Writes into the columns, and answers.
pub fn answer<T: Proved>(operation: Operation, lent: &Lent<T>, columns: &mut Columns<T>) -> Answer {
    let Lent { starts, ends, values, counts } = lent;
    let lent = LentLists { starts, ends, values, counts };
    let told = match columns {
        Columns::Events { kinds, points, lists, values } => {
            lent::list_events(lent, &mut EventColumns { kinds, points, lists, values })
        }
        Columns::Sides { starts, ends, lefts, rights, presences } => {
            two_way(operation, lent, &mut PairColumns { starts, ends, lefts, rights, presences })
        }
        Columns::Priced { starts, ends, values } => {
            multiway(operation, lent, &mut PieceColumns { starts, ends, values })
        }
    };
    told.map_or_else(answered, |written| Answer::new(0, written))
}

fn two_way<T: Proved>(
    operation: Operation,
    lists: LentLists<'_, T>,
    columns: &mut PairColumns<'_, T>,
) -> Result<usize, Refusal> {
    match operation {
        Operation::TwoWayInner => lent::two_way_inner_join(lists, columns),
        Operation::TwoWayLeft => lent::two_way_left_join(lists, columns),
        Operation::TwoWayFull => lent::two_way_full_join(lists, columns),
        _ => panic!("the columns are another operation's"),
    }
}

fn multiway<T: Proved>(
    operation: Operation,
    lists: LentLists<'_, T>,
    columns: &mut PieceColumns<'_, T>,
) -> Result<usize, Refusal> {
    match operation {
        Operation::Inner(combiner) => lent::multiway_inner_join(combiner, lists, columns),
        Operation::Full(combiner) => lent::multiway_full_join(combiner, lists, columns),
        Operation::Union => lent::multiway_union(lists, columns),
        Operation::SymmetricDifference => lent::multiway_symmetric_difference(lists, columns),
        _ => panic!("the columns are another operation's"),
    }
}

fn answered(refusal: Refusal) -> Answer {
    Answer { code: refusal.code(), number: refusal.number() }
}

/// A list of tariffs as the package takes it.
pub type List<T> = Vec<guineatwirl::Tariff<T>>;

/// The lists of lent columns, or none where the columns do not go together.
pub fn lists<T: Point>(lent: &Lent<T>) -> Option<Vec<List<T>>> {
    let ranges = lent.starts.len();
    let counted: u128 = lent.counts.iter().map(|&count| u128::from(count)).sum();
    let tariff = |place: usize| guineatwirl::Tariff {
        start: lent.starts[place],
        end: lent.ends[place],
        value: lent.values[place],
    };
    (lent.ends.len() == ranges && lent.values.len() == ranges && counted == ranges as u128)
        .then(|| lent.list_places().into_iter().map(|list| list.map(tariff).collect()).collect())
}

/// What a call would leave in its columns by what the functions from lists to vectors find. None
/// where it cannot be put to them: columns that do not go together, an unknown combiner, a two-way
/// join of other than two lists.
pub fn outcome_from_lists<T: Proved>(call: &Call<T>) -> Option<Outcome<T>> {
    let lists = lists(&call.lent)?;
    let found = match call.operation {
        Operation::Events => guineatwirl::list_events(&lists).map(events),
        Operation::Inner(combiner) => {
            guineatwirl::multiway_inner_join(Combiner::from_number(combiner)?, &lists).map(priced)
        }
        Operation::Full(combiner) => {
            guineatwirl::multiway_full_join(Combiner::from_number(combiner)?, &lists).map(priced)
        }
        Operation::Union => guineatwirl::multiway_union(&lists).map(priced),
        Operation::SymmetricDifference => {
            guineatwirl::multiway_symmetric_difference(&lists).map(priced)
        }
        Operation::TwoWayInner | Operation::TwoWayLeft | Operation::TwoWayFull => {
            let [left, right] = &lists[..] else { return None };
            pairs_of(call.operation, left, right).map(sides)
        }
    };
    Some(reading::left_behind(found.map_err(answered), &call.columns))
}

fn pairs_of<T: Proved>(
    operation: Operation,
    left: &List<T>,
    right: &List<T>,
) -> Result<Vec<Pair<T>>, Refusal> {
    match operation {
        Operation::TwoWayInner => guineatwirl::two_way_inner_join(left, right),
        Operation::TwoWayLeft => guineatwirl::two_way_left_join(left, right),
        _ => guineatwirl::two_way_full_join(left, right),
    }
}

fn events<T>(events: Vec<guineatwirl::Event<T>>) -> Pieces<T> {
    let event = |event| match event {
        guineatwirl::Event::Start { point, list, value } => {
            Event { kind: 0, point, list: list as u8, value }
        }
        guineatwirl::Event::End { point, list } => {
            Event { kind: 1, point, list: list as u8, value: 0 }
        }
    };
    Pieces::Events(events.into_iter().map(event).collect())
}

fn sides<T>(pairs: Vec<Pair<T>>) -> Pieces<T> {
    let sides = |Pair { start, end, left, right }| Sides { start, end, left, right };
    Pieces::Sides(pairs.into_iter().map(sides).collect())
}

fn priced<T>(pieces: Vec<Piece<T>>) -> Pieces<T> {
    let priced = |Piece { start, end, value }| Priced { start, end, value };
    Pieces::Priced(pieces.into_iter().map(priced).collect())
}
