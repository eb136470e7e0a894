//! Tariff files for those who type lists: `house` packs a text into a file, unpacks it, joins it by
//! the proved library, and draws it. `docs/FILE.md` of the repository has the file and the text.

#![deny(unsafe_code)]

mod bytes;
mod call;
mod house;
mod operation;
mod picture;
mod refused;
mod source;
mod text;
mod words;

use std::ffi::OsString;
use std::io::{self, Write};
use std::process::ExitCode;

use guineatwirl::join_file;

use crate::call::{Call, Command, USAGE};
use crate::refused::Refused;
use crate::source::Source;

/// Why nothing, or nothing more, is printed.
#[derive(Debug)]
enum Failure {
    /// The file or the text is at fault.
    Refused(String),
    /// Something cannot be read or written.
    Broken(String),
    /// The command line is not as the usage says.
    Usage,
}

fn main() -> ExitCode {
    let arguments: Vec<_> = std::env::args_os().skip(1).collect();
    let (said, status) = match answer(arguments) {
        Ok(status) => return status,
        Err(Failure::Refused(what)) => (format!("house: {what}\n"), 1),
        Err(Failure::Broken(what)) => (format!("house: {what}\n"), 2),
        Err(Failure::Usage) => (USAGE.to_owned(), 2),
    };
    // Where standard error cannot be written either, the status tells.
    let _ = io::stderr().write_all(said.as_bytes());
    ExitCode::from(status)
}

fn answer(arguments: Vec<OsString>) -> Result<ExitCode, Failure> {
    if arguments == ["--help"] {
        print(USAGE.as_bytes())?;
        return Ok(ExitCode::SUCCESS);
    }
    let call = Call::given(arguments).ok_or(Failure::Usage)?;
    let source = Source::read(&call.name)?;
    match call.command {
        Command::Pack => print(&source.packed()?)?,
        Command::Unpack => print(source.unpacked()?.text().as_bytes())?,
        Command::Show => print(source.picture()?.as_bytes())?,
        Command::Join { explain } => return join(&source, explain),
    }
    Ok(ExitCode::SUCCESS)
}

/// Prints the join, or the refusal and, where that is asked for, its sentence.
fn join(source: &Source, explain: bool) -> Result<ExitCode, Failure> {
    let file = source.file()?;
    let text = join_file(&file);
    print(text.as_bytes())?;
    match Refused::printed(&text) {
        None => Ok(ExitCode::SUCCESS),
        Some(refused) if explain => Err(source.explained(refused, &file)),
        Some(_) => Ok(ExitCode::from(1)),
    }
}

fn print(what: &[u8]) -> Result<(), Failure> {
    let mut out = io::stdout().lock();
    let written = out.write_all(what).and_then(|()| out.flush());
    written.map_err(|error| Failure::Broken(format!("standard output cannot be written: {error}")))
}
