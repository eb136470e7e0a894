//! Pictures: what they show, and that nothing lies over something else.

use std::collections::HashMap;

use crate::common::Range;
use crate::files::{House, random, small};
use crate::program::house;
use crate::random::Random;
use crate::scanned::{Element, scan};

/// How wide a character is and how high a digit, of the font's size.
const ADVANCE: f64 = 0.61;
const HEIGHT: f64 = 0.73;

/// The least width of a band or a gap.
const LEAST: f64 = 13.0;

#[derive(Clone, Copy, Debug)]
struct Area {
    left: f64,
    top: f64,
    right: f64,
    bottom: f64,
}

impl Area {
    fn meets(&self, other: &Self) -> bool {
        self.left < other.right
            && other.left < self.right
            && self.top < other.bottom
            && other.top < self.bottom
    }

    fn within(&self, other: &Self) -> bool {
        self.left >= other.left
            && self.right <= other.right
            && self.top >= other.top
            && self.bottom <= other.bottom
    }
}

struct Picture {
    whole: Area,
    bands: Vec<(Area, Element)>,
    labels: Vec<(Area, Element)>,
}

/// The picture of a file or of a text.
fn shown(input: &[u8]) -> Picture {
    let svg = String::from_utf8(house(&["show", "-"], input).done()).unwrap();
    let elements = scan(&svg);
    let svg = elements.last().unwrap();
    assert_eq!(
        (svg.name.as_str(), &svg.attributes["xmlns"][..]),
        ("svg", "http://www.w3.org/2000/svg")
    );
    let whole =
        Area { left: 0.0, top: 0.0, right: svg.number("width"), bottom: svg.number("height") };
    let of = |name: &str, area: fn(&Element) -> Area| {
        let those = elements.iter().filter(|element| element.name == name);
        let those = those.filter(|element| element.attributes.contains_key("x"));
        those.map(|element| (area(element), element.clone())).collect::<Vec<_>>()
    };
    Picture { whole, bands: of("rect", band), labels: of("text", label) }
}

fn band(rect: &Element) -> Area {
    let (left, top) = (rect.number("x"), rect.number("y"));
    Area { left, top, right: left + rect.number("width"), bottom: top + rect.number("height") }
}

fn label(text: &Element) -> Area {
    let size = text.attributes.get("font-size").map_or(11.0, |size| size.parse().unwrap());
    let wide = |character: char| if character.is_ascii() { ADVANCE } else { 1.0 };
    let width = size * text.text.chars().map(wide).sum::<f64>();
    let before = match text.attributes.get("text-anchor").map(String::as_str) {
        Some("middle") => width / 2.0,
        Some("end") => width,
        _ => 0.0,
    };
    let (x, y) = (text.number("x"), text.number("y"));
    if text.attributes.contains_key("transform") {
        let (top, left) = (y + before - width, x - HEIGHT * size);
        return Area { left, top, right: x, bottom: top + width };
    }
    let left = x - before;
    Area { left, top: y - HEIGHT * size, right: left + width, bottom: y }
}

/// No labels meet and no bands, all lie within the picture, and each band has its value in it.
fn assert_clear(picture: &Picture) {
    for those in [&picture.bands, &picture.labels] {
        let mut sorted: Vec<_> = those.iter().collect();
        sorted.sort_by(|one, other| one.0.top.total_cmp(&other.0.top));
        for (at, one) in sorted.iter().enumerate() {
            assert!(one.0.within(&picture.whole), "{one:?} is not within the picture");
            let near = sorted[at + 1..].iter().take_while(|other| other.0.top < one.0.bottom - 0.1);
            for other in near {
                let inner = Area { left: one.0.left + 0.2, right: one.0.right - 0.2, ..one.0 };
                assert!(!inner.meets(&other.0), "{one:?} meets {other:?}");
            }
        }
    }
    let mut values = HashMap::<&str, Vec<&(Area, Element)>>::new();
    for label in &picture.labels {
        values.entry(&label.1.note).or_default().push(label);
    }
    for (area, rect) in &picture.bands {
        let value = values[rect.note.as_str()].iter().find(|label| label.0.within(area));
        let (_, text) = value.expect("a band has its value in it");
        assert!(rect.note.ends_with(&format!(", {}", text.text)));
        assert!(area.right - area.left >= LEAST - 0.1);
    }
}

/// The picture is clear, and has a band for each range of each list.
fn assert_shows(house: &House) -> Picture {
    let picture = shown(&house.file());
    assert_clear(&picture);
    for (number, list) in house.lists.iter().enumerate() {
        for (start, end, value) in list {
            let note = format!("list {number}: {start} to {end}, {value}");
            assert!(picture.bands.iter().any(|band| band.1.note == note), "{note}");
        }
    }
    picture
}

fn many_way(lists: Vec<Vec<Range>>) -> House {
    House { operation: 5, combiner: 1, lists }
}

#[test]
fn two_lists_of_three_ranges() {
    let left = vec![(1, 20, 4500), (21, 40, 5200), (50, 60, 5200)];
    let right = vec![(1, 5, -900), (30, 55, 250), (70, 70, 250)];
    let picture = assert_shows(&many_way(vec![left, right]));
    let texts: Vec<_> = picture.labels.iter().map(|label| label.1.text.as_str()).collect();
    for text in ["join full sum", "list 0", "list 1", "join", "3600", "5450", "to 70"] {
        assert!(texts.contains(&text), "{text}");
    }
    // The gap from 41 to 49 in the first list.
    let band = |note: &str| picture.bands.iter().find(|band| band.1.note == note).unwrap().0;
    let (before, after) = (band("list 0: 21 to 40, 5200"), band("list 0: 50 to 60, 5200"));
    assert!(after.left - before.right >= LEAST);
    assert!((band("list 0: 1 to 20, 4500").right - before.left).abs() < 0.2);
}

#[test]
fn sides_of_a_two_way_join() {
    let picture = assert_shows(&House { operation: 3, combiner: 0, ..small() });
    for note in ["join, left: 6 to 9, -", "join, right: 5 to 5, 20", "join, left: 1 to 4, 100"] {
        assert!(picture.bands.iter().any(|band| band.1.note == note), "{note}");
    }
}

#[test]
fn sixteen_lists_of_a_hundred_ranges() {
    let mut numbers = Random(17);
    let mut value = move || numbers.below(12_000) as i32 - 3_000;
    let mut list = |step: i64, length: i64| -> Vec<Range> {
        (0..100).map(|n| (n * step, n * step + length - 1, value())).collect()
    };
    assert_shows(&many_way((0..16).map(|_| list(100, 100)).collect()));
    assert_shows(&many_way((0..16).map(|n| list(100 + 7 * n, 60)).collect()));
}

#[test]
fn random_houses() {
    let mut numbers = Random(18);
    for round in 0..30 {
        let lists = numbers.below(17) as usize;
        let house = random(&mut numbers, lists, round);
        assert_clear(&shown(&house.file()));
    }
}

#[test]
fn as_much_as_a_file_holds() {
    let turns = |first: i64| -> Vec<Range> {
        (0..1024).map(|n| (first + 4 * n, first + 4 * n + 2, i32::MIN)).collect()
    };
    let lists = vec![turns(i64::MIN), turns(i64::MIN + 2)];
    assert_clear(&shown(&House { operation: 3, combiner: 0, lists }.file()));
}

#[test]
fn nothing_and_everything() {
    for lists in [vec![], vec![vec![]; 3], vec![vec![(i64::MIN, i64::MAX, i32::MIN)]; 16]] {
        for (operation, combiner) in [(4, 1), (5, 1), (6, 0)] {
            assert_shows(&House { operation, combiner, lists: lists.clone() });
        }
    }
    let point = |at| vec![(at, at, 1)];
    assert_shows(&many_way(vec![point(i64::MIN), point(0), point(i64::MAX)]));
}

#[test]
fn names_of_all_kinds() {
    let names = ["a<b>&c;\"d'", "Früh & spät", "日本語の料金表", &"long ".repeat(30), "\u{ffff}"];
    let lists: String = names.iter().map(|name| format!("list {name}\n1 9 100\n")).collect();
    let picture = shown(format!("join union\n{lists}").as_bytes());
    assert_clear(&picture);
    for name in [names[0], names[1], names[2], names[3].trim_end(), "\u{fffd}"] {
        assert!(picture.bands.iter().any(|band| band.1.note == format!("{name}: 1 to 9, 100")));
    }
}
