//! Packing and unpacking undo each other, and joins are those of the library.

use guineatwirl::{MOST_FILE, join_file};

use crate::files::{House, random, small};
use crate::program::house;
use crate::random::Random;

/// The file of a text, by the program.
fn packed(text: &str) -> Vec<u8> {
    house(&["pack", "-"], text.as_bytes()).done()
}

fn unpacked(file: &[u8]) -> String {
    String::from_utf8(house(&["unpack", "-"], file).done()).unwrap()
}

fn assert_round_trips(house: &House) {
    let (file, text) = (house.file(), house.text());
    assert_eq!(unpacked(&file), text);
    assert_eq!(packed(&text), file);
}

/// The bytes and the status of a join are those of the library.
fn assert_joins(file: &[u8]) {
    let (run, text) = (house(&["join", "-"], file), join_file(file));
    assert_eq!((run.text(), run.said.as_str()), (text.as_str(), ""));
    assert_eq!(run.status, i32::from(text.starts_with("refused")));
}

#[test]
fn random_files() {
    let mut numbers = Random(14);
    for round in 0..120 {
        let lists = numbers.below(17) as usize;
        let house = random(&mut numbers, lists, 1 + round / 2);
        assert_round_trips(&house);
        assert_joins(&house.file());
    }
}

/// Names, comments, blank lines and blanks leave no trace in the file.
#[test]
fn typed_otherwise() {
    let mut numbers = Random(15);
    for _ in 0..40 {
        let house = random(&mut numbers, 3, 8);
        let mut typed = String::new();
        for line in house.text().lines() {
            let line = line.replace(' ', numbers.one_of(&[" ", "\t", "  \t "]));
            let line = line.replace("list", "list tariff of the");
            let (before, after) = (
                numbers.one_of(&["", "  ", "\t", "# note\n\n"]),
                numbers.one_of(&["", " ", "#", "\t# 1 2 3 é"]),
            );
            typed += &format!("{before}{line}{after}{}", numbers.one_of(&["\n", "\r\n"]));
        }
        assert_eq!(packed(&typed), house.file());
        assert_eq!(packed(&format!("\u{feff}{}", typed.trim_end())), house.file());
    }
}

#[test]
fn at_the_limits() {
    let ends = |count: i64| {
        let below = (0..count / 2).map(|n| (i64::MIN + 3 * n, i64::MIN + 3 * n + 1, i32::MIN));
        let above = (0..count / 2).rev().map(|n| (i64::MAX - 2 * n, i64::MAX - 2 * n, i32::MAX));
        below.chain(above).collect::<Vec<_>>()
    };
    let longest = House { operation: 5, combiner: 5, lists: vec![ends(128); 16] };
    assert_eq!(longest.file().len(), MOST_FILE);
    let houses = [
        longest,
        House { operation: 7, combiner: 0, lists: vec![ends(2048)] },
        House { operation: 3, combiner: 0, lists: vec![vec![], ends(2048)] },
        House { operation: 4, combiner: 4, lists: vec![vec![]; 16] },
        House { operation: 4, combiner: 2, lists: vec![] },
        House { operation: 6, combiner: 0, lists: vec![vec![(i64::MIN, i64::MAX, -1)]] },
    ];
    for house in houses {
        assert_round_trips(&house);
        assert_joins(&house.file());
    }
}

#[test]
fn every_operation_and_combiner() {
    for operation in 1..=7 {
        let combiners = if matches!(operation, 4 | 5) { 1..=5 } else { 0..=0 };
        for combiner in combiners {
            let house = House { operation, combiner, ..small() };
            assert_round_trips(&house);
            assert_joins(&house.file());
        }
    }
}

/// Every front of a file is taken for a file, and so is one with a byte changed or added.
#[test]
fn damaged_files() {
    let file = small().file();
    for length in 0..file.len() {
        assert_joins(&file[..length]);
    }
    for at in 0..file.len() {
        for byte in [file[at] ^ 1, b'j', 0xFF] {
            let mut damaged = file.clone();
            damaged[at] = byte;
            assert_joins(&damaged);
        }
    }
    for more in [&b"\n"[..], b"JL\x00\x00", &[0; MOST_FILE]] {
        assert_joins(&[&file, more].concat());
    }
}

#[test]
fn a_text_is_joined_as_its_file() {
    let mut numbers = Random(16);
    for _ in 0..40 {
        let typed = random(&mut numbers, 4, 20);
        let run = house(&["join", "-"], typed.text().as_bytes());
        assert_eq!(run.done(), join_file(&typed.file()).into_bytes());
    }
}
