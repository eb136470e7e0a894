//! Texts that are refused: where, and why.

use crate::program::house;

/// The text is refused at a line and a column, by `pack` and by `join` alike.
fn assert_faulty(text: &str, line: usize, column: usize, what: &str) {
    let said = format!("house: standard input, line {line}, column {column}: {what}\n");
    house(&["pack", "-"], text.as_bytes()).assert_refused(&said);
    house(&["join", "-"], text.as_bytes()).assert_refused(&said);
}

const OPERATIONS: &str = "two-way-inner, two-way-left, two-way-full, inner, full, union or \
                          symmetric-difference";
const COMBINERS: &str = "sum, largest, smallest, count or mean";

#[test]
fn the_join() {
    let first = "the first line is a join, as: join full sum";
    assert_faulty("# nothing\n\n", 3, 1, "the text has no join");
    assert_faulty("  ", 1, 3, "the text has no join");
    assert_faulty("list fee\n", 1, 1, first);
    assert_faulty("\n  Join full sum\n", 2, 3, first);
    assert_faulty("JOIN full sum\n", 1, 1, first);
    assert_faulty("join # full\n", 1, 5, &format!("the operation ({OPERATIONS}) is missing"));
    assert_faulty("join outer\n", 1, 6, &format!("there is no operation 'outer': {OPERATIONS}"));
    assert_faulty("join full\n", 1, 10, &format!("the combiner ({COMBINERS}) is missing"));
    assert_faulty("join full  max", 1, 12, &format!("there is no combiner 'max': {COMBINERS}"));
    assert_faulty("join full sum 1\n", 1, 15, "'1' is one word too many");
    assert_faulty("join union sum\n", 1, 12, "union takes no combiner");
    let again = "join union\njoin union\n";
    assert_faulty(again, 2, 1, "a text has one join, its first line");
}

#[test]
fn lists_and_their_names() {
    assert_faulty("join union\nlist\t # fee\n", 2, 5, "the list's name is missing");
    let twice = "join union\nlist the fee\nlist b\n list the  fee\n";
    assert_faulty(twice, 4, 7, "the list of line 2 has this name already");
    assert_faulty("join union\nlist \u{7}\n", 2, 6, "the name has a control character");
    let many: String = (0..17).map(|number| format!("list {number}\n")).collect();
    let what = "union takes no more than 16 lists";
    assert_faulty(&format!("join union\n{many}"), 18, 1, what);
    let what = "two-way-left takes no more than 2 lists";
    assert_faulty("join two-way-left\nlist a\nlist b\nlist c\n", 4, 1, what);
    let what = "two-way-left takes 2 lists, and there are 1";
    assert_faulty("\njoin two-way-left\nlist a\n1 2 3\n", 2, 6, what);
}

#[test]
fn ranges() {
    let faulty = |range: &str, column, what: &str| {
        assert_faulty(&format!("join union\nlist é\n{range}\n"), 3, column, what);
    };
    faulty("1 2", 4, "the range's value is missing");
    faulty(" 7 # to 9", 3, "the range's end is missing");
    faulty("1 2 3 4", 7, "'4' is one word too many");
    faulty("1 2 45.00", 5, "'45.00' is no whole number");
    faulty("1 2 4,500", 5, "'4,500' is no whole number");
    faulty("1 +2 3", 3, "'+2' is no whole number");
    faulty("1 - 3", 3, "'-' is no whole number");
    faulty("1 2 −900", 5, "'−900' is no whole number: it has U+2212");
    faulty("1\u{a0}2 3", 1, "'1\\u{a0}2' is no whole number: it has U+00A0");
    faulty("price 1 2", 1, "a line begins with list or a range, not with 'price'");
    let instants = "an instant is from -9223372036854775808 to 9223372036854775807";
    let values = "a value is from -2147483648 to 2147483647 pence";
    let beyond = "9223372036854775808";
    faulty(&format!("1 {beyond} 3"), 3, &format!("'{beyond}' does not fit: {instants}"));
    faulty("1 2 -2147483649", 5, &format!("'-2147483649' does not fit: {values}"));
    let digits = "1".repeat(40);
    faulty(&format!("{digits}11 2 3"), 1, &format!("'{digits}…' does not fit: {instants}"));
    faulty("9 8 1", 1, "the range starts at 9, beyond its end, 8");
    assert_faulty(
        "join union\n1 2 3\n",
        2,
        1,
        "the range is in no list: a line before it names one",
    );
}

#[test]
fn ranges_against_one_another() {
    let text = "join union\nlist a\n1 5 1\n\n  5 9 1\nlist b\n1 9 1\n";
    let what = "the range starts at 5, and that of line 3 ends at 5: it must start beyond";
    assert_faulty(text, 5, 3, what);
    let ranges: String = (0..2049).map(|point| format!("{point} {point} 1\n")).collect();
    let text = format!("join union\nlist a\n{}list b\n7 7 7\n", &ranges[..ranges.len() - 12]);
    assert_eq!(text.lines().count(), 2048 + 4);
    assert_faulty(&text, 2052, 1, "lists have at most 2048 ranges in all");
}

#[test]
fn bytes_that_are_no_text() {
    let said = |what: &str| format!("house: standard input{what}\n");
    let latin = b"join union\nlist d\xE9but\n";
    let what = said(", line 2, column 7: this is not UTF-8");
    house(&["join", "-"], latin).assert_refused(&what);
    let long = [b"join union\n".to_vec(), vec![b'#'; 1 << 20]].concat();
    let what = said(", line 2, column 1048566: a text has at most 1048576 bytes");
    house(&["join", "-"], &long).assert_refused(&what);
    // A byte order mark counts among the bytes, and has no column.
    for more in 0..8 {
        let long = [&b"\xEF\xBB\xBFjoin union\n"[..], &vec![b'#'; (1 << 20) - 13 + more]].concat();
        let what = said(", line 2, column 1048563: a text has at most 1048576 bytes");
        house(&["pack", "-"], &long).assert_refused(&what);
    }
    let most = [&b"\xEF\xBB\xBFjoin union\n"[..], &vec![b'#'; (1 << 20) - 14]].concat();
    house(&["pack", "-"], &most).done();
    let what = ": this is no text: it is empty, or begins as a tariff file does, or has a byte 00";
    for bytes in [&b""[..], b"JH", b"join\0"] {
        house(&["pack", "-"], bytes).assert_refused(&said(what));
    }
}
