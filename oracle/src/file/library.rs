//! The proved function from the bytes of a tariff file to its text, through the package that hosts
//! use.

pub use guineatwirl::lent::join_file_into as print_into;
pub use guineatwirl::{MOST_TEXT, join_file as text};
