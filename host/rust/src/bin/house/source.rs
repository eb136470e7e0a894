//! What is read, and what can be made of it.

use std::ffi::OsStr;
use std::fs::File;
use std::io::{self, Read};

use guineatwirl::join_file;

use crate::house::House;
use crate::refused::Refused;
use crate::words::{Fault, Position, fault};
use crate::{Failure, bytes, picture, text};

/// The most bytes that a text has.
const MOST_TEXT: usize = 1 << 20;

/// A tariff file or a text, by its name.
#[derive(Debug)]
pub struct Source {
    name: String,
    bytes: Vec<u8>,
}

impl Source {
    /// Reads a file, or standard input where the name is `-`, up to one byte more than a text has.
    pub fn read(name: &OsStr) -> Result<Self, Failure> {
        let (mut bytes, most) = (Vec::new(), MOST_TEXT as u64 + 1);
        let (name, read) = if name == "-" {
            let read = io::stdin().lock().take(most).read_to_end(&mut bytes);
            ("standard input".to_owned(), read)
        } else {
            let read = File::open(name).and_then(|file| file.take(most).read_to_end(&mut bytes));
            (name.to_string_lossy().into_owned(), read)
        };
        match read {
            Ok(_) => Ok(Self { name, bytes }),
            Err(error) => Err(Failure::Broken(format!("{name} cannot be read: {error}"))),
        }
    }

    /// It is a tariff file where it begins as one does, as far as it goes, or has a byte 00. Every
    /// file that the library accepts does both, and no text does either.
    fn is_file(&self) -> bool {
        let front = &self.bytes[..self.bytes.len().min(bytes::HEAD.len())];
        bytes::HEAD.starts_with(front) || self.bytes.contains(&0)
    }

    /// The tariff file: the bytes themselves, or those of the text.
    pub fn file(&self) -> Result<Vec<u8>, Failure> {
        if self.is_file() { Ok(self.bytes.clone()) } else { self.packed() }
    }

    /// The tariff file of the text.
    pub fn packed(&self) -> Result<Vec<u8>, Failure> {
        Ok(bytes::packed(&self.typed()?))
    }

    /// The house that the text says.
    fn typed(&self) -> Result<House, Failure> {
        if self.is_file() {
            return Err(self.refused(
                ": this is no text: it is empty, or begins as a tariff file does, or has a byte 00",
            ));
        }
        let typed = read_text(&self.bytes).and_then(text::house);
        typed.map_err(|fault| self.refused(format_args!(", {fault}")))
    }

    /// The house that the tariff file says. A faulty range does not hinder: the text shows it.
    pub fn unpacked(&self) -> Result<House, Failure> {
        match Refused::printed(&join_file(&self.bytes)) {
            Some(refused) if !refused.is_of_a_range() => Err(self.explained(refused, &self.bytes)),
            _ => bytes::unpacked(&self.bytes).ok_or_else(|| {
                self.refused(": the library reads this otherwise: it is of another version")
            }),
        }
    }

    /// The picture of the lists and of their join.
    pub fn picture(&self) -> Result<String, Failure> {
        let house = if self.is_file() { self.unpacked() } else { self.typed() }?;
        let file = bytes::packed(&house);
        let joined = join_file(&file);
        match Refused::printed(&joined) {
            Some(refused) => Err(self.explained(refused, &file)),
            None => Ok(picture::drawn(&house, &joined)),
        }
    }

    /// Why a file is refused.
    pub fn explained(&self, refused: Refused, file: &[u8]) -> Failure {
        self.refused(format_args!(": code {}: {}", refused.code, refused.sentence(file)))
    }

    fn refused(&self, what: impl core::fmt::Display) -> Failure {
        Failure::Refused(format!("{}{what}", self.name))
    }
}

/// The text that bytes are. A byte order mark at its front is passed over, and counts as bytes.
fn read_text(bytes: &[u8]) -> Result<&str, Fault> {
    let text = bytes.strip_prefix("\u{feff}".as_bytes()).unwrap_or(bytes);
    let most = MOST_TEXT - (bytes.len() - text.len());
    let (before, what) = match str::from_utf8(text) {
        _ if text.len() > most => (most, format!("a text has at most {MOST_TEXT} bytes")),
        Ok(text) => return Ok(text),
        Err(error) => (error.valid_up_to(), "this is not UTF-8".to_owned()),
    };
    fault(Position::after(&String::from_utf8_lossy(&text[..before])), what)
}
