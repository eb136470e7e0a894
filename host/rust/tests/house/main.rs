//! The program `house`, its text, and what docs/FILE.md says of both.

mod commands;
#[path = "../common/mod.rs"]
mod common;
mod document;
mod explained;
mod files;
mod program;
mod random;
mod round_trip;
mod scanned;
mod show;
mod texts;
