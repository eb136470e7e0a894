//! A text's lines in words, each with its place, and what is wrong at a place.

use core::fmt::{self, Display};
use core::str::FromStr;

/// A line and a column, counted from 1 in characters.
#[derive(Clone, Copy, Debug, PartialEq, Eq)]
pub struct Position {
    pub line: usize,
    pub column: usize,
}

impl Position {
    /// The place after a text.
    pub fn after(text: &str) -> Self {
        let last = text.rsplit('\n').next().unwrap_or("");
        Self { line: 1 + text.matches('\n').count(), column: 1 + last.chars().count() }
    }
}

/// What is wrong with a text, and where.
#[derive(Debug)]
pub struct Fault {
    pub position: Position,
    pub what: String,
}

impl Display for Fault {
    fn fmt(&self, out: &mut fmt::Formatter<'_>) -> fmt::Result {
        write!(out, "line {}, column {}: {}", self.position.line, self.position.column, self.what)
    }
}

/// The fault at a place.
pub fn fault<T>(position: Position, what: impl Into<String>) -> Result<T, Fault> {
    Err(Fault { position, what: what.into() })
}

#[derive(Clone, Copy, Debug)]
pub struct Word<'a> {
    pub text: &'a str,
    pub position: Position,
}

/// The words of a line before its comment, and the place after them.
#[derive(Debug)]
pub struct Line<'a> {
    pub words: Vec<Word<'a>>,
    pub end: Position,
}

/// The lines of a text.
pub fn lines(text: &str) -> impl Iterator<Item = Line<'_>> {
    text.lines().enumerate().map(|(before, line)| words(line, before + 1))
}

fn words(line: &str, number: usize) -> Line<'_> {
    let said = line.split('#').next().unwrap_or("");
    let (mut words, mut column) = (Vec::new(), 1);
    let mut end = Position { line: number, column };
    for text in said.split([' ', '\t']) {
        let position = Position { line: number, column };
        column += text.chars().count();
        if !text.is_empty() {
            words.push(Word { text, position });
            end.column = column;
        }
        column += 1;
    }
    Line { words, end }
}

impl<'a> Line<'a> {
    /// The word at a place of the line, or what is missing there.
    pub fn word(&self, at: usize, missing: &str) -> Result<Word<'a>, Fault> {
        match self.words.get(at) {
            Some(word) => Ok(*word),
            None => fault(self.end, format!("{missing} is missing")),
        }
    }

    /// Nothing may follow the first so many words.
    pub fn ends_after(&self, count: usize) -> Result<(), Fault> {
        match self.words.get(count) {
            Some(word) => fault(word.position, format!("{} is one word too many", word.quoted())),
            None => Ok(()),
        }
    }
}

impl Word<'_> {
    /// The word in quotes, shortened where it is long.
    pub fn quoted(&self) -> String {
        const MOST: usize = 40;
        let shown: String = self.text.chars().take(MOST).collect();
        let more = if self.text.chars().count() > MOST { "…" } else { "" };
        format!("'{}{more}'", shown.escape_debug())
    }

    /// The whole number that the word is; `kind` says what fits.
    pub fn whole<N: FromStr>(&self, kind: &str) -> Result<N, Fault> {
        let digits = self.text.strip_prefix('-').unwrap_or(self.text);
        if digits.is_empty() || !digits.bytes().all(|byte| byte.is_ascii_digit()) {
            let strange = self.text.chars().find(|character| !character.is_ascii());
            let it_has =
                strange.map(|character| format!(": it has U+{:04X}", u32::from(character)));
            let what =
                format!("{} is no whole number{}", self.quoted(), it_has.unwrap_or_default());
            return fault(self.position, what);
        }
        match self.text.parse() {
            Ok(number) => Ok(number),
            Err(_) => fault(self.position, format!("{} does not fit: {kind}", self.quoted())),
        }
    }
}
