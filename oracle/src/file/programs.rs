//! The programs `join_printer` and `house` held against the proved function, on the files of
//! `answers.bin`.

use std::io::{ErrorKind, Write};
use std::path::Path;
use std::process::{Command, Output, Stdio};
use std::{env, fs, io, process};

use crate::file::{answers, library};

/// Tells how many files there were, or the first difference.
pub fn compare(join_printer: &str, house: &str) -> Result<u64, String> {
    let path = env::temp_dir().join(format!("guineatwirl_{}.tariff", process::id()));
    let mut count = 0;
    let mut compared = Ok(());
    for file in answers::files() {
        compared = compare_on(&file, &path, join_printer, house);
        if compared.is_err() {
            break;
        }
        count += 1;
    }
    fs::remove_file(&path).map_err(|error| format!("{}: {error}", path.display()))?;
    compared.map(|()| count)
}

/// Holds both programs against the function on one file, which is stored under a path.
fn compare_on(file: &[u8], path: &Path, join_printer: &str, house: &str) -> Result<(), String> {
    let due = library::text(file);
    let told = |error| format!("{}: {error}", path.display());
    fs::write(path, file).map_err(told)?;
    let refused = i32::from(due.starts_with("refused"));
    let printed = fed(join_printer, file).map_err(|error| format!("{join_printer}: {error}"))?;
    agree(join_printer, file, &due, 0, &printed)?;
    if could_be_text(file) {
        return Ok(());
    }
    let joined = Command::new(house).arg("join").arg(path).output();
    let joined = joined.map_err(|error| format!("{house}: {error}"))?;
    agree(house, file, &due, refused, &joined)
}

/// Whether `house` would take it for lists as text: it does not begin as a file does and has no
/// byte 00.
fn could_be_text(file: &[u8]) -> bool {
    !b"JH".starts_with(&file[..file.len().min(2)]) && !file.contains(&0)
}

/// What a program puts out that is fed a file. It may leave the end of one that is too long unread.
fn fed(program: &str, file: &[u8]) -> io::Result<Output> {
    let mut running = Command::new(program).stdin(Stdio::piped()).stdout(Stdio::piped()).spawn()?;
    let mut input = running.stdin.take().expect("the input is piped");
    match input.write_all(file) {
        Err(error) if error.kind() != ErrorKind::BrokenPipe => return Err(error),
        _ => drop(input),
    }
    running.wait_with_output()
}

fn agree(program: &str, file: &[u8], due: &str, status: i32, found: &Output) -> Result<(), String> {
    if found.status.code() == Some(status) && found.stdout == due.as_bytes() {
        return Ok(());
    }
    let file: String = file.iter().map(|byte| format!("{byte:02X}")).collect();
    let (told, text) = (found.status, String::from_utf8_lossy(&found.stdout));
    Err(format!(
        "a difference in {program}\n\nfile:\n{file}\n\ndue: exit status: {status}\n{due}\nfound: {told}\n{text}\n"
    ))
}
