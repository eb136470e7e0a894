//! Houses: what a tariff file and its text say, with random ones.

use crate::common::{Range, file};
use crate::random::Random;

pub const OPERATIONS: [(u8, &str); 7] = [
    (1, "two-way-inner"),
    (2, "two-way-left"),
    (3, "two-way-full"),
    (4, "inner"),
    (5, "full"),
    (6, "union"),
    (7, "symmetric-difference"),
];
pub const COMBINERS: [&str; 6] = ["", " sum", " largest", " smallest", " count", " mean"];

/// An operation by number, a combiner by number or 0, and lists.
#[derive(Clone, Debug)]
pub struct House {
    pub operation: u8,
    pub combiner: u8,
    pub lists: Vec<Vec<Range>>,
}

impl House {
    pub fn file(&self) -> Vec<u8> {
        file(self.operation, self.combiner, &self.lists)
    }

    /// The text that `unpack` gives.
    pub fn text(&self) -> String {
        let operation = OPERATIONS[usize::from(self.operation) - 1].1;
        let mut text = format!("join {operation}{}\n", COMBINERS[usize::from(self.combiner)]);
        for (number, list) in self.lists.iter().enumerate() {
            text += &format!("\nlist {number}\n");
            for (start, end, value) in list {
                text += &format!("{start} {end} {value}\n");
            }
        }
        text
    }
}

/// The full join by sum of 1 to 5 at 100 and 5 to 9 at 20.
pub fn small() -> House {
    House { operation: 5, combiner: 1, lists: vec![vec![(1, 5, 100)], vec![(5, 9, 20)]] }
}

/// A house with so many lists (two for a two-way join) of up to so many ranges each.
pub fn random(random: &mut Random, lists: usize, ranges: u64) -> House {
    let operation = OPERATIONS[random.below(7) as usize].0;
    let combiner = if matches!(operation, 4 | 5) { 1 + random.below(5) as u8 } else { 0 };
    let lists = if operation <= 3 { 2 } else { lists };
    let lists = (0..lists).map(|_| random_list(random, ranges)).collect();
    House { operation, combiner, lists }
}

/// A list that is well formed: ranges that touch or do not, and now and then one at an end of the
/// line.
fn random_list(random: &mut Random, ranges: u64) -> Vec<Range> {
    let reach = random.one_of(&[3, 10, 100_000, u64::MAX / 5_000]);
    let mut next = random.one_of(&[i64::MIN, -500, 0, 1_763_262_000, i64::MAX - 40]);
    let mut list = Vec::new();
    for _ in 0..random.below(ranges + 1) {
        let gap = random.below(3) * random.below(reach);
        let Some(start) = next.checked_add_unsigned(gap) else { break };
        let end = start.saturating_add_unsigned(random.below(reach));
        list.push((start, end, random_value(random)));
        let Some(after) = end.checked_add(1) else { break };
        next = after;
    }
    list
}

fn random_value(random: &mut Random) -> i32 {
    let small = random.below(2_000) as i32 - 500;
    random.one_of(&[small, small, small, 0, i32::MIN, i32::MAX])
}
