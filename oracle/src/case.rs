//! A case of the comparison: a call, and where its outcome is known from.

use crate::call::{Answer, Call, Pieces};

/// Where the outcome that is due comes from.
#[derive(Clone, Debug)]
pub enum Due<T> {
    /// The crate's iterators, over well-formed lists.
    TheCrate,
    /// A fault that was planted; no column may change.
    Refused(Answer),
    /// The boundary sheet, and the crate as well.
    Sheet(Pieces<T>),
}

#[derive(Clone, Debug)]
pub struct Case<T> {
    pub number: u64,
    pub call: Call<T>,
    pub due: Due<T>,
}
