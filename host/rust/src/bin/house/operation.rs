//! Operations and combiners by number and by the name that a text has for them.

use guineatwirl::Combiner;

/// An operation of a tariff file, and what it asks for.
#[derive(Debug, PartialEq, Eq)]
pub struct Operation {
    pub number: u8,
    pub name: &'static str,
    /// It takes two lists, and pairs their values.
    pub two_way: bool,
    /// It makes one value of many.
    pub combines: bool,
}

const fn operation(number: u8, name: &'static str, two_way: bool, combines: bool) -> Operation {
    Operation { number, name, two_way, combines }
}

pub const OPERATIONS: &[Operation] = &[
    operation(1, "two-way-inner", true, false),
    operation(2, "two-way-left", true, false),
    operation(3, "two-way-full", true, false),
    operation(4, "inner", false, true),
    operation(5, "full", false, true),
    operation(6, "union", false, false),
    operation(7, "symmetric-difference", false, false),
];

const COMBINERS: &[(Combiner, &str)] = &[
    (Combiner::Sum, "sum"),
    (Combiner::Largest, "largest"),
    (Combiner::Smallest, "smallest"),
    (Combiner::NumberPresent, "count"),
    (Combiner::Mean, "mean"),
];

impl Operation {
    pub fn numbered(number: u8) -> Option<&'static Self> {
        OPERATIONS.iter().find(|operation| operation.number == number)
    }

    pub fn named(name: &str) -> Option<&'static Self> {
        OPERATIONS.iter().find(|operation| operation.name == name)
    }
}

pub fn combiner_named(name: &str) -> Option<Combiner> {
    COMBINERS.iter().find(|row| row.1 == name).map(|row| row.0)
}

pub fn combiner_name(combiner: Combiner) -> &'static str {
    COMBINERS.iter().find(|row| row.0 == combiner).map_or("unknown", |row| row.1)
}

/// Names as a sentence has them: `a, b or c`.
fn listed(names: &[&str]) -> String {
    match names {
        [before @ .., last] if !before.is_empty() => format!("{} or {last}", before.join(", ")),
        _ => names.concat(),
    }
}

pub fn operation_names() -> String {
    listed(&OPERATIONS.iter().map(|operation| operation.name).collect::<Vec<_>>())
}

pub fn combiner_names() -> String {
    listed(&COMBINERS.iter().map(|row| row.1).collect::<Vec<_>>())
}
