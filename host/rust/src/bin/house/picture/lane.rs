//! The lists and their join as lanes of bands.

use crate::house::{House, List};

/// A range and its value, or the missing side of a piece.
#[derive(Clone, Copy, Debug)]
pub struct Band {
    pub start: i64,
    pub end: i64,
    pub value: Option<i64>,
}

impl Band {
    /// Where it begins and where what follows it begins.
    pub fn edges(&self) -> [i128; 2] {
        [i128::from(self.start), i128::from(self.end) + 1]
    }

    pub fn label(&self) -> String {
        self.value.map_or("-".to_owned(), |value| value.to_string())
    }
}

#[derive(Debug)]
pub struct Lane {
    pub name: String,
    pub bands: Vec<Band>,
}

/// A lane for each list.
pub fn of_lists(house: &House) -> Vec<Lane> {
    house.lists.iter().map(of_list).collect()
}

fn of_list(list: &List) -> Lane {
    let bands = list.ranges.iter().map(|range| Band {
        start: range.start,
        end: range.end,
        value: Some(i64::from(range.value)),
    });
    Lane { name: shown(&list.name), bands: bands.collect() }
}

/// A list that has a number for a name is shown as that list.
fn shown(name: &str) -> String {
    let is_number = name.bytes().all(|byte| byte.is_ascii_digit());
    if is_number { format!("list {name}") } else { name.to_owned() }
}

/// A lane for the pieces of a printed join, or one for each side of a two-way join.
pub fn of_join(house: &House, joined: &str) -> Vec<Lane> {
    let names: &[&str] =
        if house.operation.two_way { &["join, left", "join, right"] } else { &["join"] };
    let lane = |(side, name): (usize, &&str)| {
        let bands = joined.lines().skip(1).filter_map(|row| piece(row, side)).collect();
        Lane { name: (*name).to_owned(), bands }
    };
    names.iter().enumerate().map(lane).collect()
}

/// A side of a printed row; `-` is a missing one.
fn piece(row: &str, side: usize) -> Option<Band> {
    let mut fields = row.split(' ');
    let (start, end) = (fields.next()?.parse().ok()?, fields.next()?.parse().ok()?);
    Some(Band { start, end, value: fields.nth(side)?.parse().ok() })
}
