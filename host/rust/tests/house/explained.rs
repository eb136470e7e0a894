//! Every refusal of a file in a sentence.

use guineatwirl::MOST_FILE;

use crate::files::{House, small};
use crate::program::house;

/// `join --explain` prints the refusal and says why; `unpack` says the same and prints nothing.
fn assert_explained(file: &[u8], printed: &str, why: &str) {
    let run = house(&["join", "--explain", "-"], file);
    assert_eq!((run.status, run.text()), (1, format!("refused {printed}\n").as_str()));
    let code = printed.split(' ').next().unwrap();
    let said = format!("house: standard input: code {code}: {why}\n");
    assert_eq!(run.said, said);
    if !matches!(code, "5" | "6") {
        house(&["unpack", "-"], file).assert_refused(&said);
    }
}

#[test]
fn the_head() {
    let with = |operation, combiner, lists| {
        House { operation, combiner, lists: vec![vec![]; lists] }.file()
    };
    let why = "the file ends at 0, where the head should begin";
    assert_explained(b"", "11 0", why);
    let why = "the file ends at 4, within the head, whose 6 bytes begin at offset 0";
    assert_explained(b"JH\x05\x01", "11 0", why);
    assert_explained(b"\0\0", "10 0", "the head should begin at offset 0, with 4A 48");
    let why = "there is no operation 9: they have the numbers 1 to 7";
    assert_explained(&with(9, 0, 0), "13 0", why);
    let why = "17 lists are more than 16, the most that can be joined";
    assert_explained(&with(5, 1, 17), "1 0", why);
    let why = "a two-way join takes 2 lists and was given 3";
    assert_explained(&with(1, 0, 3), "2 0", why);
    let why = "there is no combiner 6: they have the numbers 1 to 5";
    assert_explained(&with(4, 6, 3), "7 0", why);
    assert_explained(&with(6, 1, 3), "7 0", "union has combiner 1, and takes 0");
}

#[test]
fn records() {
    let small = small().file();
    let damaged = |at: usize, byte| {
        let mut file = small.clone();
        file[at] = byte;
        file
    };
    let why = "list 1 (counted from 0) should begin at offset 32, with 4A 4C";
    assert_explained(&damaged(33, 0), "10 32", why);
    let why = "range 0 of list 1 (counted from 0) should begin at offset 36, with 4A 52";
    assert_explained(&damaged(36, 0), "10 36", why);
    let why = "the file ends at 32, where list 1 (counted from 0) should begin";
    assert_explained(&small[..32], "11 32", why);
    let why =
        "the file ends at 33, within list 1 (counted from 0), whose 4 bytes begin at offset 32";
    assert_explained(&small[..33], "11 32", why);
    let why = "the file ends at 58, where range 1 of list 1 (counted from 0) should begin";
    assert_explained(&damaged(35, 2), "11 58", why);
    let why = "the records end at 58, and the file goes on to 60";
    assert_explained(&[&small[..], b"JL"].concat(), "12 58", why);
    let why = "the file has more than 45126 bytes, the most that lists take";
    assert_explained(&[0; MOST_FILE + 1], "9 45126", why);
    // Wherever lists would begin if it were read on.
    let mut long = small;
    long.resize(MOST_FILE + 4, 0);
    for ranges in 0..8 {
        long[9] = ranges;
        assert_explained(&long, "9 45126", why);
    }
}

#[test]
fn ranges() {
    let house = |lists| House { operation: 6, combiner: 0, lists };
    let many = (0..2048).map(|point| (point, point, 1)).collect::<Vec<_>>();
    let why = "with list 1 (counted from 0): 2049 ranges are more than 2048, the most that lists \
               have in all";
    assert_explained(&house(vec![vec![(1, 2, 3)], many]).file(), "3 32", why);
    let lists = vec![vec![], vec![(1, 2, 3)], vec![], vec![(1, 2, 3), (4, 3, 3)]];
    let why = "range 1 of list 3 (counted from 0) starts beyond its end";
    assert_explained(&house(lists).file(), "5 2", why);
    let lists = vec![vec![(1, 2, 3)], vec![(1, 2, 3), (2, 2, 3)]];
    let why = "range 1 of list 1 (counted from 0) does not start beyond the end of the range \
               before it";
    assert_explained(&house(lists).file(), "6 2", why);
}

/// A faulty range is told whatever its number, by `show` too. The number is no offset.
#[test]
fn each_range_of_a_list() {
    for at in 0..40 {
        let mut list = (0..40).map(|n| (2 * n, 2 * n, 1)).collect::<Vec<_>>();
        list[at].1 = -1;
        let faulty = House { operation: 6, combiner: 0, lists: vec![list] }.file();
        let why = format!("range {at} of list 0 (counted from 0) starts beyond its end");
        assert_explained(&faulty, &format!("5 {at}"), &why);
        house(&["show", "-"], &faulty)
            .assert_refused(&format!("house: standard input: code 5: {why}\n"));
    }
}
