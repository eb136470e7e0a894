//! The text that is due for a tariff file: the crate's pieces, or the refusal, by ordinary
//! formatting.

use core::fmt::{self, Write};

use crate::blaze_side;
use crate::call::{Answer, Pieces};
use crate::file::reading::{self, Request};
use crate::file::writing::numbers;

/// The text that a file is due.
pub fn due(file: &[u8]) -> String {
    let mut text = String::new();
    print(&reading::read(file), &mut text);
    text
}

/// Lays the text of what was read at the end of another.
pub fn print(read: &Result<Request, Answer>, text: &mut String) {
    let printed = match read {
        Ok(request) => print_pieces(request, text),
        Err(Answer { code, number }) => writeln!(text, "refused {code} {number}"),
    };
    printed.expect("text grows");
}

fn print_pieces(Request { operation, lent }: &Request, text: &mut String) -> fmt::Result {
    let pieces = blaze_side::yielded(*operation, lent);
    let [number, combiner] = numbers(*operation);
    writeln!(text, "join {number} {combiner} {} {}", lent.counts.len(), pieces.count())?;
    match pieces {
        Pieces::Sides(pieces) => {
            for piece in pieces {
                write!(text, "{} {}", piece.start, piece.end)?;
                for side in [piece.left, piece.right] {
                    match side {
                        Some(value) => write!(text, " {value}")?,
                        None => text.push_str(" -"),
                    }
                }
                text.push('\n');
            }
        }
        Pieces::Priced(pieces) => {
            for piece in pieces {
                writeln!(text, "{} {} {}", piece.start, piece.end, piece.value)?;
            }
        }
        Pieces::Events(_) => panic!("no file asks for events"),
    }
    Ok(())
}
