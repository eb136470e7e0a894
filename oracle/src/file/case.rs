//! A case of the comparison of files: the file, what is known of it beforehand, and the room lent.

use crate::call::Answer;
use crate::file::reading::Request;

/// What is known of a file otherwise than by reading it.
#[derive(Clone, Debug)]
pub enum Known {
    Nothing,
    /// What it was written from.
    Request(Request),
    /// The refusal of a fault that was planted.
    Refused(Answer),
    /// Its text, copied out by hand.
    Text(&'static str),
}

#[derive(Clone, Debug)]
pub struct Case {
    pub file: Vec<u8>,
    pub known: Known,
    /// How many bytes are lent for the text, where it matters; else enough or a little more.
    pub room: Option<usize>,
}

impl Case {
    pub fn of(file: Vec<u8>) -> Self {
        Self { file, known: Known::Nothing, room: None }
    }

    pub fn refused(file: Vec<u8>, code: u8, number: usize) -> Self {
        Self { known: Known::Refused(Answer::new(code, number)), ..Self::of(file) }
    }
}
