//! The tariff file: bytes in, the printed text of its join out.

use crate::{MOST_LISTS, MOST_RANGES, ffi, lent};

/// The most bytes that a tariff file has: a head, and a record for each list and each range.
///
/// ```
/// use guineatwirl::{MOST_FILE, join_file};
///
/// assert_eq!(MOST_FILE, 45_126);
/// assert_eq!(join_file(&[0; MOST_FILE + 1]), "refused 9 45126\n");
/// ```
pub const MOST_FILE: usize = 6 + 4 * MOST_LISTS + 22 * MOST_RANGES;

/// The most bytes that the printed text of a file has: room for them is always enough.
///
/// The longest text is that of a two-way join. Its header has 16 bytes. Both sides are there in
/// fewer pieces than there are ranges, whose rows have up to 66 bytes; those of the others have up
/// to 56. A row of a many-way join or of a selection has up to 55.
///
/// ```
/// assert_eq!(guineatwirl::MOST_TEXT, 249_806);
/// ```
pub const MOST_TEXT: usize = 16 + 66 * (MOST_RANGES - 1) + 56 * MOST_RANGES;

/// The printed text of a tariff file: a header and a row for each piece of the join that the file
/// asks for, or the one line of a refusal. Any bytes have a text.
///
/// `docs/FILE.md` of the repository has the file, the text and the refusals.
///
/// ```
/// use guineatwirl::join_file;
///
/// // A full join by sum of two lists, 1 to 5 at 100 pence and 5 to 9 at 20.
/// let file = [
///     &b"JH\x05\x01\x00\x02"[..],
///     b"JL\x00\x01",
///     b"JR\x00\x00\x00\x00\x00\x00\x00\x01\x00\x00\x00\x00\x00\x00\x00\x05\x00\x00\x00\x64",
///     b"JL\x00\x01",
///     b"JR\x00\x00\x00\x00\x00\x00\x00\x05\x00\x00\x00\x00\x00\x00\x00\x09\x00\x00\x00\x14",
/// ]
/// .concat();
/// assert_eq!(join_file(&file), "join 5 1 2 3\n1 4 100\n5 5 120\n6 9 20\n");
/// assert_eq!(join_file(&file[..57]), "refused 11 36\n");
/// ```
#[must_use]
pub fn join_file(file: &[u8]) -> String {
    let mut text = vec![0; MOST_TEXT];
    let written = lent::join_file_into(file, &mut text);
    text.truncate(written);
    String::from_utf8_lossy(&text).into_owned()
}

/// Writes what [`join_file`](crate::join_file) gives to the front of `text`, and tells how many
/// bytes it has; later places keep their contents. A text that does not fit gives 0, and nothing
/// is written. [`MOST_TEXT`] bytes are always enough.
///
/// ```
/// use guineatwirl::lent;
///
/// // The join of no lists covers every instant.
/// let mut text = [b'.'; 64];
/// let written = lent::join_file_into(b"JH\x04\x01\x00\x00", &mut text);
/// assert_eq!(&text[..13], b"join 4 1 0 1\n");
/// assert_eq!(&text[13..written], b"-9223372036854775808 9223372036854775807 0\n");
/// assert_eq!(&text[written..], b"........");
///
/// let mut short = [b'.'; 12];
/// assert_eq!(lent::join_file_into(b"", &mut short), 0);
/// assert_eq!(&short, b"............");
/// ```
pub fn join_file_into(file: &[u8], text: &mut [u8]) -> usize {
    ffi::join_file(file, text)
}
