//! What the proved library answered in a run.

use core::fmt::{self, Display};
use std::collections::{BTreeMap, BTreeSet};

use crate::call::Operation;

/// The refusals that a file can earn.
const OF_FILES: [u8; 11] = [1, 2, 3, 5, 6, 7, 9, 10, 11, 12, 13];

/// How often each operation gave each code.
pub struct Coverage<O>(BTreeMap<(O, u8), u64>);

impl<O> Default for Coverage<O> {
    fn default() -> Self {
        Self(BTreeMap::new())
    }
}

impl<O: Ord> Coverage<O> {
    pub fn count(&mut self, operation: O, code: u8) {
        *self.0.entry((operation, code)).or_default() += 1;
    }

    pub fn add(&mut self, other: Self) {
        for (answered, times) in other.0 {
            *self.0.entry(answered).or_default() += times;
        }
    }
}

/// Of calls. A many-way join counts as one operation under all its combiners.
impl Coverage<Operation> {
    /// A refusal that an operation of the library can give and never gave.
    pub fn missing(&self) -> Option<(Operation, u8)> {
        let operations: BTreeSet<_> = self.0.keys().map(|&(operation, _)| operation).collect();
        let refusals = |operation: Operation| {
            let codes = (1..=8).filter(move |&code| operation.can_refuse(code));
            codes.map(move |code| (operation, code))
        };
        operations.into_iter().flat_map(refusals).find(|refusal| !self.0.contains_key(refusal))
    }
}

/// Of files. Operations go by their numbers; a refusal tells no operation and counts under 0.
impl Coverage<u8> {
    /// What a file can be answered and never was, or was answered and never can be.
    pub fn astray(&self) -> Option<String> {
        let joined = |operation: u8| self.0.contains_key(&(operation, 0));
        let refused = |code: u8| self.0.contains_key(&(0, code));
        if let Some(operation) = (1..=7).find(|&operation| !joined(operation)) {
            return Some(format!("the library never joined a file by operation {operation}"));
        }
        if let Some(code) = OF_FILES.into_iter().find(|&code| !refused(code)) {
            return Some(format!("the library never refused a file with code {code}"));
        }
        let astray = (0..=u8::MAX).find(|code| refused(*code) && !OF_FILES.contains(code))?;
        Some(format!("the library refused a file with code {astray}"))
    }
}

/// How many answers there were, and how many of each code.
impl<O> Display for Coverage<O> {
    fn fmt(&self, out: &mut fmt::Formatter<'_>) -> fmt::Result {
        let mut of_code = BTreeMap::<u8, u64>::new();
        for (&(_, code), times) in &self.0 {
            *of_code.entry(code).or_default() += times;
        }
        let codes: Vec<_> =
            of_code.iter().map(|(code, times)| format!("code {code}: {times}")).collect();
        write!(out, "{} ({})", of_code.values().sum::<u64>(), codes.join(", "))
    }
}
