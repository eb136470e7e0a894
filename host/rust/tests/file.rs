//! The text of a tariff file: what is written to a buffer, and how much at most.

mod common;

use common::file;
use guineatwirl::{MOST_FILE, MOST_RANGES, MOST_TEXT, join_file, lent};

/// The same texts by `join_file` and into buffers of every length up to a byte more than is needed.
fn assert_printed(file: &[u8], text: &str) {
    assert_eq!(join_file(file), text);
    for length in 0..=text.len() + 1 {
        let mut buffer = vec![b'~'; length];
        let written = lent::join_file_into(file, &mut buffer);
        let fits = length >= text.len();
        assert_eq!(written, if fits { text.len() } else { 0 });
        assert_eq!(&buffer[..written], &text.as_bytes()[..written]);
        assert!(buffer[written..].iter().all(|&byte| byte == b'~'), "later places are written");
    }
}

#[test]
fn each_operation() {
    let lists = [vec![(1, 5, 100)], vec![(5, 9, 20)]];
    for (operation, combiner, text) in [
        (1, 0, "join 1 0 2 1\n5 5 100 20\n"),
        (2, 0, "join 2 0 2 2\n1 4 100 -\n5 5 100 20\n"),
        (3, 0, "join 3 0 2 3\n1 4 100 -\n5 5 100 20\n6 9 - 20\n"),
        (4, 1, "join 4 1 2 1\n5 5 120\n"),
        (5, 1, "join 5 1 2 3\n1 4 100\n5 5 120\n6 9 20\n"),
        (5, 2, "join 5 2 2 2\n1 5 100\n6 9 20\n"),
        (5, 3, "join 5 3 2 2\n1 4 100\n5 9 20\n"),
        (5, 4, "join 5 4 2 3\n1 4 1\n5 5 2\n6 9 1\n"),
        (5, 5, "join 5 5 2 3\n1 4 100\n5 5 60\n6 9 20\n"),
        (6, 0, "join 6 0 2 2\n1 4 100\n5 9 20\n"),
        (7, 0, "join 7 0 2 2\n1 4 100\n6 9 20\n"),
    ] {
        assert_printed(&file(operation, combiner, &lists), text);
    }
}

#[test]
fn no_lists_and_the_whole_line() {
    let whole = "-9223372036854775808 9223372036854775807";
    assert_printed(&file(4, 5, &[]), &format!("join 4 5 0 1\n{whole} 0\n"));
    assert_printed(&file(5, 5, &[]), "join 5 5 0 0\n");
    let lists = vec![vec![(i64::MIN, i64::MAX, i32::MIN)]; 16];
    assert_printed(&file(5, 1, &lists), &format!("join 5 1 16 1\n{whole} -34359738368\n"));
}

#[test]
fn refusals_have_a_text_too() {
    let range = vec![(1, 5, 100)];
    for (file, text) in [
        (vec![], "refused 11 0\n"),
        (vec![0], "refused 11 0\n"),
        (vec![0, 0], "refused 10 0\n"),
        (file(0, 0, &[]), "refused 13 0\n"),
        (file(5, 1, &vec![vec![]; 17]), "refused 1 0\n"),
        (file(1, 0, &[vec![]]), "refused 2 0\n"),
        (file(6, 1, &[]), "refused 7 0\n"),
        (file(6, 0, &[range.clone(), vec![(9, 8, 0)]]), "refused 5 1\n"),
        (file(6, 0, &[range.clone(), vec![(1, 2, 0), (2, 3, 0)]]), "refused 6 2\n"),
    ] {
        assert_printed(&file, text);
    }
}

#[test]
fn the_longest_file_and_a_byte_more() {
    let ranges = |count: i64| (0..count).map(|n| (2 * n, 2 * n, 1)).collect::<Vec<_>>();
    let mut longest = file(5, 1, &vec![ranges(128); 16]);
    assert_eq!(longest.len(), MOST_FILE);
    assert!(join_file(&longest).starts_with("join 5 1 16 128\n0 0 16\n2 2 16\n"));
    longest.push(0);
    assert_eq!(join_file(&longest), "refused 9 45126\n");

    let lists = [ranges(1), ranges(2048)];
    assert_eq!(join_file(&file(6, 0, &lists)), "refused 3 32\n");
}

/// No text is longer than that of lists which overlap by turns, with every number as long as it can
/// be.
#[test]
fn the_longest_text() {
    let list = |first: i64| {
        (0..MOST_RANGES as i64 / 2).map(move |n| (first + 4 * n, first + 4 * n + 2, i32::MIN))
    };
    let lists: [Vec<_>; 2] = [list(i64::MIN).collect(), list(i64::MIN + 2).collect()];
    let file = file(3, 0, &lists);
    let text = join_file(&file);
    assert!(text.starts_with("join 3 0 2 4095\n"));
    assert_eq!(text.len(), MOST_TEXT);

    let mut buffer = vec![b'~'; MOST_TEXT - 1];
    assert_eq!(lent::join_file_into(&file, &mut buffer), 0);
    assert!(buffer.iter().all(|&byte| byte == b'~'));
}
