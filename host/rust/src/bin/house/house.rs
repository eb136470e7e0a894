//! What a tariff file and its text say: an operation, its combiner, and lists.

use guineatwirl::{Combiner, Tariff};

use crate::operation::{Operation, combiner_name};

#[derive(Debug)]
pub struct House {
    pub operation: &'static Operation,
    /// The combiner of an operation that combines, and no other.
    pub combiner: Option<Combiner>,
    pub lists: Vec<List>,
}

#[derive(Debug)]
pub struct List {
    pub name: String,
    pub ranges: Vec<Tariff<i64>>,
}

impl House {
    /// The operation and the combiner, as a text has them.
    pub fn join(&self) -> String {
        match self.combiner {
            Some(combiner) => format!("join {} {}", self.operation.name, combiner_name(combiner)),
            None => format!("join {}", self.operation.name),
        }
    }

    pub fn ranges(&self) -> usize {
        self.lists.iter().map(|list| list.ranges.len()).sum()
    }

    /// The text that says it.
    pub fn text(&self) -> String {
        let mut text = self.join() + "\n";
        for List { name, ranges } in &self.lists {
            text += &format!("\nlist {name}\n");
            for Tariff { start, end, value } in ranges {
                text += &format!("{start} {end} {value}\n");
            }
        }
        text
    }
}
