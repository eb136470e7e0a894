//! docs/FILE.md and examples/ say what is so.

use guineatwirl::{MOST_FILE, MOST_LISTS, MOST_RANGES, MOST_TEXT, join_file};

use crate::files::{COMBINERS, OPERATIONS};
use crate::program::house;

/// A file of the repository.
fn repository(name: &str) -> String {
    let path = format!("{}/../../{name}", env!("CARGO_MANIFEST_DIR"));
    std::fs::read_to_string(path).expect(name)
}

fn document() -> String {
    repository("docs/FILE.md")
}

/// The block of that kind.
fn block(kind: &str) -> String {
    let document = document();
    let (_, after) = document.split_once(&format!("```{kind}\n")).expect(kind);
    after.split_once("```").expect(kind).0.to_owned()
}

/// The bytes that are written out, each line at the offset that it names.
fn example() -> Vec<u8> {
    let mut file = Vec::new();
    for line in block("bytes").lines() {
        let (offset, rest) = line.split_once(' ').unwrap();
        assert_eq!(offset, file.len().to_string());
        let bytes = rest.trim_start().split("  ").next().unwrap();
        file.extend(bytes.split(' ').map(|byte| u8::from_str_radix(byte, 16).unwrap()));
    }
    file
}

#[test]
fn the_file_of_58_bytes() {
    let file = example();
    assert_eq!(file.len(), 58);
    assert_eq!(join_file(&file), block("printed"));
    assert_eq!(house(&["pack", "-"], block("typed").as_bytes()).done(), file);
    let mut paired = file;
    paired[2..4].copy_from_slice(&[3, 0]);
    assert_eq!(join_file(&paired), block("paired"));
}

/// The rows of the table after a heading, cell by cell.
fn table(heading: &str) -> Vec<Vec<String>> {
    let document = document();
    let (_, after) = document.split_once(heading).expect(heading);
    let rows = after.lines().skip_while(|line| !line.starts_with('|')).skip(2);
    let rows = rows.take_while(|line| line.starts_with('|'));
    let cells =
        |row: &str| row.trim_matches('|').split('|').map(|cell| cell.trim().to_owned()).collect();
    rows.map(cells).collect()
}

#[test]
fn changes_of_it() {
    let rows = table("58 bytes above; bytes are hexadecimal");
    assert!(rows.len() >= 20);
    for row in rows {
        assert_eq!(format!("`{}`", join_file(&changed(&row[0])).trim_end()), row[1], "{}", row[0]);
    }
}

fn changed(change: &str) -> Vec<u8> {
    let mut file = example();
    match change {
        "nothing of it: no bytes" => file.clear(),
        "its first byte alone" => file.truncate(1),
        "a byte more" => file.push(0),
        _ => match change.strip_prefix("its first ") {
            Some(length) => file.truncate(length.strip_suffix(" bytes").unwrap().parse().unwrap()),
            None => change.split(", ").for_each(|one| {
                let (byte, at) = one.split_once(" at ").unwrap();
                file[at.parse::<usize>().unwrap()] = u8::from_str_radix(byte, 16).unwrap();
            }),
        },
    }
    file
}

/// Each row of the operations names what the text calls it, and what it takes.
#[test]
fn names() {
    let rows = table("In a list each range starts beyond");
    assert_eq!(rows.len(), OPERATIONS.len());
    for (row, (number, name)) in rows.iter().zip(OPERATIONS) {
        assert_eq!(row[0], number.to_string());
        assert_eq!(row[1], format!("`{name}`"));
        let combiner = if row[3] == "0" { "" } else { " mean" };
        let lists = if row[2] == "2" { "list a\nlist b\n" } else { "" };
        let text = format!("join {name}{combiner}\n{lists}");
        assert_eq!(house(&["pack", "-"], text.as_bytes()).done()[2], number);
    }
    for (number, name) in COMBINERS.iter().enumerate().skip(1) {
        assert!(document().contains(&format!("{number} `{}`", name.trim())));
    }
}

#[test]
fn limits() {
    let rows = table("The combiners are 1 `sum`");
    let limits = [MOST_LISTS, MOST_RANGES, MOST_FILE, 2 * MOST_RANGES - 1, MOST_TEXT];
    assert_eq!(rows.len(), limits.len());
    for (row, limit) in rows.iter().zip(limits) {
        let number = row[1].rsplit("= ").next().unwrap().replace(',', "");
        assert_eq!(number, limit.to_string(), "{}", row[0]);
    }
}

#[test]
fn what_is_said_of_faults() {
    let said = block("fault").replace("prices.txt", "standard input");
    house(&["pack", "-"], block("faulty").as_bytes()).assert_refused(&said);
    let run = house(&["join", "--explain", "-"], &example()[..57]);
    assert_eq!(run.said, block("explained").replace("prices.jh", "standard input"));
}

#[test]
fn the_example_of_a_house() {
    let run = house(&["join", "-"], repository("examples/house.txt").as_bytes());
    assert_eq!(run.done(), repository("examples/joined.txt").into_bytes());
}
