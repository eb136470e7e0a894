//! One list as it is typed: what `check` of the package tells, held against the reading of the rules
//! and, where the list can be joined, against what the library tells of its columns.

use crate::call::{Answer, Lent, MOST_RANGES, Operation, Tariff};
use crate::coverage::Coverage;
use crate::generator::{USUAL, lists, lists_of_ranges};
use crate::random::Random;
use crate::rattle_side::Proved;
use crate::{rattle_side, reading};

/// Lists of each width.
const LISTS: u64 = 100_000;

/// Once in so many a list has as many ranges as can be joined, or more.
const LONG: u64 = 500;

/// Tells how many lists there were, or the first difference, or that an answer never came.
pub fn run<T: Proved>(seed: u64) -> Result<u64, String> {
    let width = T::WIDTH;
    let mut proved = Coverage::default();
    let mut told = [false; 7];
    for number in 0..LISTS {
        let list = list::<T>(&mut Random::of_case(seed, "one list", number));
        let answer = check(&list).map_err(|difference| {
            format!("a difference in one list, {width}, case {number}, seed {seed}\n\n{difference}")
        })?;
        proved.count(Operation::Events, answer.code);
        told[usize::from(answer.code)] = true;
    }
    println!("{width} one list: {LISTS} cases, by the library {proved}");
    match [0, 5, 6].into_iter().find(|&code| !told[code]) {
        Some(code) => Err(format!("the library never answered code {code} of one list of {width}")),
        None => Ok(LISTS),
    }
}

/// A well-formed list, or several one after another, and then perhaps a fault or two.
fn list<T: Proved>(random: &mut Random) -> Vec<Tariff<T>> {
    let lists = if random.once_in(LONG) {
        let ranges = MOST_RANGES as u64 + random.pick(&[0, 1, 60]);
        lists_of_ranges(random, Operation::Events, ranges)
    } else {
        lists(random, Operation::Events, USUAL)
    };
    let kept = if random.once_in(4) { lists.len() } else { 1 };
    let mut list: Vec<_> = lists.into_iter().take(kept).flatten().collect();
    for _ in 0..random.below(3) {
        spoil(random, &mut list);
    }
    list
}

/// Turns a range round, or moves its start to the end before it, or to just beyond that.
fn spoil<T: Proved>(random: &mut Random, list: &mut [Tariff<T>]) {
    let Some(last) = list.len().checked_sub(1) else { return };
    let any = random.between(0, last as u64) as usize;
    let place = random.pick(&[0, last, any]);
    let before = list[place.saturating_sub(1)].end;
    match random.below(3) {
        0 => {
            let Tariff { start, end, .. } = list[place];
            (list[place].start, list[place].end) = (end, start);
        }
        1 => list[place].start = before,
        _ => list[place].start = before.after().unwrap_or(before),
    }
}

/// The answer of the library.
fn check<T: Proved>(list: &[Tariff<T>]) -> Result<Answer, String> {
    let lent = Lent::from_lists(&[list.to_vec()]);
    let typed = &rattle_side::lists(&lent).expect("the columns go together")[0];
    let read = reading::first_faulty_range(&lent).unwrap_or(Answer::new(0, 0));
    let told = guineatwirl::check(typed);
    let proved = match told {
        Ok(()) => Answer::new(0, 0),
        Err(refusal) => Answer { code: refusal.code(), number: refusal.number() },
    };
    if proved != read {
        return Err(format!("{list:?}\n\nlibrary: {proved:?}\nreading: {read:?}\n"));
    }
    let columns = guineatwirl::list_events(&[typed]).map(|_| ());
    if list.len() <= MOST_RANGES && columns != told {
        return Err(format!("{list:?}\n\nstructs: {told:?}\ncolumns: {columns:?}\n"));
    }
    Ok(proved)
}
