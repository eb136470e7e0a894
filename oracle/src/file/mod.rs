//! The tariff file: an independent reader and printer with the crate's joins between them, the
//! proved function from bytes to text, and the files on which the two are held against each other.

pub mod answers;
pub mod case;
pub mod compare;
pub mod damage;
pub mod faults;
pub mod heads;
pub mod lengths;
pub mod library;
pub mod programs;
pub mod reading;
pub mod sound;
pub mod text;
pub mod writing;
