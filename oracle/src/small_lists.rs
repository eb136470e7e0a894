//! Every set of lists over a short line, at three places of each width.

use crate::call::{Call, Lent, Operation, Point, Tariff};
use crate::case::{Case, Due};
use crate::generator::{most_pieces, uneven_columns};
use crate::random::Random;

/// A short line of so many points, the values that a range may have there, how many lists make a
/// set, and the operations that the sets go through.
#[derive(Clone, Copy)]
pub struct Universe {
    pub points: u64,
    pub values: &'static [i32],
    pub lists: u32,
    pub operations: &'static [Operation],
}

/// Every well-formed list over the line that begins at a key.
fn every_list<T: Point>(universe: Universe, first_key: u64) -> Vec<Vec<Tariff<T>>> {
    let point = |offset| T::from_key(first_key + offset);
    let mut lists: Vec<Vec<Tariff<T>>> = vec![Vec::new()];
    let mut grown = 0;
    while let Some(list) = lists.get(grown).cloned() {
        let free = list.last().map_or(0, |last| last.end.key() - first_key + 1);
        for start in free..universe.points {
            for end in start..universe.points {
                for &value in universe.values {
                    let tariff = Tariff { start: point(start), end: point(end), value };
                    lists.push([list.as_slice(), &[tariff]].concat());
                }
            }
        }
        grown += 1;
    }
    lists
}

/// Every set of lists of the universe under each of its operations, with the line at the least
/// point, about the middle of the width, and at the greatest point.
pub fn every_set<T: Point>(universe: Universe) -> impl Iterator<Item = Case<T>> {
    let middle = T::GREATEST_KEY / 2 - universe.points / 2;
    let highest = T::GREATEST_KEY - (universe.points - 1);
    [0, middle, highest]
        .into_iter()
        .flat_map(move |first_key| sets_at(universe, first_key))
        .zip(0..)
        .map(|(call, number)| Case { number, call, due: Due::TheCrate })
}

fn sets_at<T: Point>(universe: Universe, first_key: u64) -> impl Iterator<Item = Call<T>> {
    let lists = every_list::<T>(universe, first_key);
    let operations = universe.operations;
    let sets = lists.len().pow(universe.lists);
    (0..sets * operations.len()).map(move |number| {
        let operation = operations[number % operations.len()];
        let lent = Lent::from_lists(&nth_set(&lists, universe.lists, number / operations.len()));
        let random = &mut Random::of_case(first_key, "small lists", number as u64);
        let columns = uneven_columns(random, operation, most_pieces(&lent));
        Call { operation, lent, columns }
    })
}

/// The lists that the digits of a number stand for, the lowest first.
fn nth_set<L: Clone>(lists: &[L], count: u32, number: usize) -> Vec<L> {
    (0..count).map(|digit| lists[number / lists.len().pow(digit) % lists.len()].clone()).collect()
}
