//! The command line.

use std::ffi::OsString;

pub const USAGE: &str = "\
usage: house pack TEXT               writes the tariff file of a text
       house unpack FILE             prints the text of a tariff file
       house join [--explain] FILE   prints the join of a tariff file or a text; --explain
                                     says why it is refused
       house show FILE               prints a picture of the same, as SVG
TEXT or FILE may be -, standard input. Status: 0 done, 1 refused, 2 not read or not written.
";

#[derive(Clone, Copy, Debug, PartialEq, Eq)]
pub enum Command {
    Pack,
    Unpack,
    Join { explain: bool },
    Show,
}

/// What is asked for, and of which file.
#[derive(Debug)]
pub struct Call {
    pub command: Command,
    pub name: OsString,
}

impl Call {
    /// What the arguments ask for, or `None` where they are not as the usage says.
    pub fn given(arguments: impl IntoIterator<Item = OsString>) -> Option<Self> {
        let is_option = |word: &OsString| word.to_string_lossy().starts_with("--");
        let (options, words): (Vec<_>, Vec<_>) = arguments.into_iter().partition(is_option);
        let [command, name] = <[OsString; 2]>::try_from(words).ok()?;
        let command = match (command.to_str()?, options.as_slice()) {
            ("pack", []) => Command::Pack,
            ("unpack", []) => Command::Unpack,
            ("join", []) => Command::Join { explain: false },
            ("join", [option]) if option == "--explain" => Command::Join { explain: true },
            ("show", []) => Command::Show,
            _ => return None,
        };
        Some(Self { command, name })
    }
}
