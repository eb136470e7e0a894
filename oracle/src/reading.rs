//! The rules read point by point, for every input: no sweep, no heap, no state.

use core::ops::Range;

use crate::call::{
    Answer, Call, Columns, Event, Lent, MOST_LISTS, MOST_RANGES, Operation, Outcome, Pieces, Point,
    Priced, Sides,
};

/// What the rules say that the call leaves behind.
pub fn outcome<T: Point>(call: &Call<T>) -> Outcome<T> {
    let found = match refusal(call.operation, &call.lent) {
        Some(answer) => Err(answer),
        None => Ok(pieces(call.operation, &call.lent)),
    };
    left_behind(found, &call.columns)
}

/// What a call leaves behind for which these pieces were found, or a refusal.
pub fn left_behind<T: Point>(found: Result<Pieces<T>, Answer>, columns: &Columns<T>) -> Outcome<T> {
    let untouched = |answer| Outcome { answer, columns: columns.clone() };
    match found {
        Err(answer) => untouched(answer),
        Ok(pieces) if pieces.count() > columns.room() => untouched(Answer::new(8, pieces.count())),
        Ok(pieces) => {
            let answer = Answer::new(0, pieces.count());
            Outcome { answer, columns: written(&pieces, columns) }
        }
    }
}

/// The refusal due before any piece is looked for, in the order 1, 2, 4, 3, 7, 5 and 6.
pub fn refusal<T: Point>(operation: Operation, lent: &Lent<T>) -> Option<Answer> {
    let ranges = lent.starts.len();
    let counted: u128 = lent.counts.iter().map(|&count| u128::from(count)).sum();
    if lent.counts.len() > MOST_LISTS {
        return Some(Answer::new(1, 0));
    }
    if operation.is_two_way() && lent.counts.len() != 2 {
        return Some(Answer::new(2, 0));
    }
    if lent.ends.len() != ranges || lent.values.len() != ranges || counted != ranges as u128 {
        return Some(Answer::new(4, 0));
    }
    if ranges > MOST_RANGES {
        return Some(Answer::new(3, 0));
    }
    if operation.combiner().is_some_and(|combiner| !(1..=5).contains(&combiner)) {
        return Some(Answer::new(7, 0));
    }
    first_faulty_range(lent)
}

/// The first range that is wrong by itself or after the one before it in its list.
pub fn first_faulty_range<T: Point>(lent: &Lent<T>) -> Option<Answer> {
    for places in lent.list_places() {
        for place in places.clone() {
            if lent.starts[place] > lent.ends[place] {
                return Some(Answer::new(5, place));
            }
            if place > places.start && lent.starts[place] <= lent.ends[place - 1] {
                return Some(Answer::new(6, place));
            }
        }
    }
    None
}

/// The pieces that the rule of the operation asks for, over well-formed lists.
pub fn pieces<T: Point>(operation: Operation, lent: &Lent<T>) -> Pieces<T> {
    let lists = Lists { lent, places: lent.list_places() };
    match operation {
        Operation::Events => Pieces::Events(lists.events()),
        Operation::TwoWayInner => Pieces::Sides(lists.shared_by_two()),
        Operation::TwoWayLeft => Pieces::Sides(lists.cut_by_two(|left, _| left)),
        Operation::TwoWayFull => Pieces::Sides(lists.cut_by_two(|left, right| left || right)),
        _ => lists.priced(|present| rule(operation, lists.places.len(), present)),
    }
}

/// The price of a many-way join or a selection at a point, over well-formed lists.
pub fn price<T: Point>(operation: Operation, lent: &Lent<T>, point: T) -> Option<i64> {
    let lists = Lists { lent, places: lent.list_places() };
    rule(operation, lists.places.len(), &lists.present(point))
}

/// What a many-way join or a selection of so many lists makes of the values present.
fn rule(operation: Operation, lists: usize, present: &[i64]) -> Option<i64> {
    match operation {
        Operation::Inner(combiner) => (present.len() == lists).then(|| combined(combiner, present)),
        Operation::Full(combiner) => (!present.is_empty()).then(|| combined(combiner, present)),
        Operation::Union => present.last().copied(),
        Operation::SymmetricDifference => {
            present.last().copied().filter(|_| present.len() % 2 == 1)
        }
        _ => panic!("another kind of operation"),
    }
}

/// The combiners of the rules over the values present.
fn combined(combiner: u8, present: &[i64]) -> i64 {
    let sum: i64 = present.iter().sum();
    let lists = present.len() as i64;
    match combiner {
        _ if present.is_empty() => 0,
        1 => sum,
        2 => present.iter().copied().fold(i64::MIN, i64::max),
        3 => present.iter().copied().fold(i64::MAX, i64::min),
        4 => lists,
        _ => sum.signum() * (sum.abs() / lists),
    }
}

/// A range on which a rule is constant, with the rule's value there.
struct Run<T, V> {
    start: T,
    end: T,
    value: V,
}

struct Lists<'a, T> {
    lent: &'a Lent<T>,
    places: Vec<Range<usize>>,
}

impl<T: Point> Lists<'_, T> {
    /// The place of the range of a list that covers the point.
    fn covering(&self, list: usize, point: T) -> Option<usize> {
        let covers =
            |&place: &usize| self.lent.starts[place] <= point && point <= self.lent.ends[place];
        self.places[list].clone().find(covers)
    }

    /// The values of the lists present at a point, lower list index first.
    fn present(&self, point: T) -> Vec<i64> {
        (0..self.places.len())
            .filter_map(|list| self.covering(list, point))
            .map(|place| i64::from(self.lent.values[place]))
            .collect()
    }

    /// Every point where a rule can change: the least, each start, and just past each end.
    fn cuts(&self) -> Vec<T> {
        let past_ends = self.lent.ends.iter().filter_map(|end| end.after());
        let mut cuts = vec![T::least()];
        cuts.extend(&self.lent.starts);
        cuts.extend(past_ends);
        cuts.sort_unstable();
        cuts.dedup();
        cuts
    }

    /// The maximal runs of a rule that gives the points it admits a value.
    fn runs<V: PartialEq>(&self, rule: impl Fn(T) -> Option<V>) -> Vec<Run<T, V>> {
        let cuts = self.cuts();
        let mut runs: Vec<Run<T, V>> = Vec::new();
        for (index, &start) in cuts.iter().enumerate() {
            let Some(value) = rule(start) else { continue };
            let end = cuts.get(index + 1).map_or(T::greatest(), |cut| T::from_key(cut.key() - 1));
            match runs.last_mut() {
                Some(run) if run.end.after() == Some(start) && run.value == value => run.end = end,
                _ => runs.push(Run { start, end, value }),
            }
        }
        runs
    }

    /// The runs of a rule over the values present.
    fn priced(&self, rule: impl Fn(&[i64]) -> Option<i64>) -> Pieces<T> {
        let runs = self.runs(|point| rule(&self.present(point)));
        let piece = |run: Run<T, i64>| Priced { start: run.start, end: run.end, value: run.value };
        Pieces::Priced(runs.into_iter().map(piece).collect())
    }

    /// One piece for every left range and right range that share a point.
    fn shared_by_two(&self) -> Vec<Sides<T>> {
        let lent = self.lent;
        let mut pieces = Vec::new();
        for left in self.places[0].clone() {
            for right in self.places[1].clone() {
                let start = lent.starts[left].max(lent.starts[right]);
                let end = lent.ends[left].min(lent.ends[right]);
                if start <= end {
                    pieces.push(self.sides(start, end, Some(left), Some(right)));
                }
            }
        }
        pieces.sort_unstable_by_key(|piece| piece.start);
        pieces
    }

    /// The line cut where the covering left or right range changes. Ranges are known by their
    /// places, so that touching ones never become one.
    fn cut_by_two(&self, keeps: impl Fn(bool, bool) -> bool) -> Vec<Sides<T>> {
        let runs = self.runs(|point| {
            let (left, right) = (self.covering(0, point), self.covering(1, point));
            keeps(left.is_some(), right.is_some()).then_some((left, right))
        });
        let piece = |run: Run<T, (Option<usize>, Option<usize>)>| {
            self.sides(run.start, run.end, run.value.0, run.value.1)
        };
        runs.into_iter().map(piece).collect()
    }

    fn sides(&self, start: T, end: T, left: Option<usize>, right: Option<usize>) -> Sides<T> {
        let value = |place: usize| self.lent.values[place];
        Sides { start, end, left: left.map(value), right: right.map(value) }
    }

    /// Two events a range, by point, then starts before ends, then lower list index.
    fn events(&self) -> Vec<Event<T>> {
        let lent = self.lent;
        let mut events = Vec::new();
        for (list, places) in self.places.iter().enumerate() {
            let list = list as u8;
            for place in places.clone() {
                let (start, end, value) =
                    (lent.starts[place], lent.ends[place], lent.values[place]);
                events.push(Event { kind: 0, point: start, list, value });
                events.push(Event { kind: 1, point: end, list, value: 0 });
            }
        }
        events.sort_unstable_by_key(|event| (event.point, event.kind, event.list));
        events
    }
}

/// The pieces at the front of each column, later places as they were.
fn written<T: Point>(pieces: &Pieces<T>, before: &Columns<T>) -> Columns<T> {
    match (pieces, before) {
        (Pieces::Events(pieces), Columns::Events { kinds, points, lists, values }) => {
            Columns::Events {
                kinds: front(pieces, kinds, |piece| piece.kind),
                points: front(pieces, points, |piece| piece.point),
                lists: front(pieces, lists, |piece| piece.list),
                values: front(pieces, values, |piece| piece.value),
            }
        }
        (Pieces::Sides(pieces), Columns::Sides { starts, ends, lefts, rights, presences }) => {
            Columns::Sides {
                starts: front(pieces, starts, |piece| piece.start),
                ends: front(pieces, ends, |piece| piece.end),
                lefts: front(pieces, lefts, |piece| piece.left.unwrap_or(0)),
                rights: front(pieces, rights, |piece| piece.right.unwrap_or(0)),
                presences: front(pieces, presences, presence_bits),
            }
        }
        (Pieces::Priced(pieces), Columns::Priced { starts, ends, values }) => Columns::Priced {
            starts: front(pieces, starts, |piece| piece.start),
            ends: front(pieces, ends, |piece| piece.end),
            values: front(pieces, values, |piece| piece.value),
        },
        _ => panic!("the columns are another operation's"),
    }
}

/// Bit 0 for the left side, bit 1 for the right.
fn presence_bits<T>(piece: &Sides<T>) -> u8 {
    u8::from(piece.left.is_some()) | u8::from(piece.right.is_some()) << 1
}

fn front<P, N: Copy>(pieces: &[P], before: &[N], field: impl Fn(&P) -> N) -> Vec<N> {
    let later = before.iter().skip(pieces.len()).copied();
    pieces.iter().map(field).chain(later).collect()
}
