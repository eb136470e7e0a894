//! Every refusal through lent columns: what it is, what it says, and that nothing is written.

use guineatwirl::{
    LentLists, MOST_RANGES, PairColumns, PieceColumns, Place, Point, Refusal, Tariff, check, lent,
};

/// Two lists of two ranges and one.
const SOUND: LentLists<'_, u32> =
    LentLists { starts: &[1, 6, 1], ends: &[5, 9, 9], values: &[10, 11, 1], counts: &[2, 1] };

/// The refusal of a full join by that combiner, with room for so many pieces.
fn refused<P: Point>(combiner: u8, lists: LentLists<'_, P>, room: usize) -> Refusal {
    let (mut starts, mut ends) = (vec![P::GREATEST; room], vec![P::GREATEST; room + 1]);
    let mut values = vec![-7; room + 2];
    let mut columns = PieceColumns { starts: &mut starts, ends: &mut ends, values: &mut values };
    let refusal = lent::multiway_full_join(combiner, lists, &mut columns);
    let untouched = starts.iter().chain(&ends).all(|&point| point == P::GREATEST);
    assert!(untouched && values.iter().all(|&value| value == -7), "a refused call wrote");
    refusal.expect_err("the call is refused")
}

fn assert_told(refusal: Refusal, expected: Refusal, answer: (u8, u64), sentence: &str) {
    assert_eq!(refusal, expected);
    assert_eq!((refusal.code(), refusal.number()), answer);
    assert_eq!(refusal.to_string(), sentence);
}

#[test]
fn too_many_lists() {
    let lists = LentLists { counts: &[0; 17], ..SOUND };
    let expected = Refusal::TooManyLists { lists: 17 };
    let sentence = "17 lists are more than 16, the most that can be joined";
    assert_told(refused(1, lists, 9), expected, (1, 0), sentence);
}

#[test]
fn not_two_lists() {
    let lists = LentLists { counts: &[2, 1, 0], ..SOUND };
    let mut columns = PairColumns {
        starts: &mut [7; 9],
        ends: &mut [7; 9],
        lefts: &mut [7; 9],
        rights: &mut [7; 9],
        presences: &mut [7; 9],
    };
    let refusal = lent::two_way_full_join(lists, &mut columns).unwrap_err();
    assert_eq!(*columns.presences, [7; 9]);
    let expected = Refusal::NotTwoLists { lists: 3 };
    assert_told(refusal, expected, (2, 0), "a two-way join takes 2 lists and was given 3");
}

#[test]
fn too_many_ranges() {
    let (points, values) = (vec![0_i64; 2049], vec![0; 2049]);
    let lists = LentLists { starts: &points, ends: &points, values: &values, counts: &[2049] };
    let expected = Refusal::TooManyRanges { ranges: 2049 };
    let sentence = "2049 ranges are more than 2048, the most that lists have in all";
    assert_told(refused(1, lists, 9), expected, (3, 0), sentence);
}

#[test]
fn uneven_columns() {
    let lists = LentLists { ends: &[5, 9], counts: &[2, 4], ..SOUND };
    let expected = Refusal::UnevenColumns { starts: 3, ends: 2, values: 3, counted: 6 };
    let sentence = "the columns do not go together: 3 starts, 2 ends, 3 values, \
                    and counts that add up to 6";
    assert_told(refused(1, lists, 9), expected, (4, 0), sentence);
}

#[test]
fn backward_range() {
    let lists = LentLists { ends: &[5, 9, 0], counts: &[2, 0, 1], ..SOUND };
    let expected = Refusal::BackwardRange(Place { list: 2, range: 0, index: 2 });
    let sentence = "range 0 of list 2 (counted from 0) starts beyond its end";
    assert_told(refused(1, lists, 9), expected, (5, 2), sentence);
}

#[test]
fn overlapping_range() {
    let starts = [i64::LEAST, 5, 0];
    let lists = LentLists {
        starts: &starts,
        ends: &[5, 9, i64::GREATEST],
        values: &[0; 3],
        counts: &[2, 1],
    };
    let expected = Refusal::OverlappingRange(Place { list: 0, range: 1, index: 1 });
    let sentence =
        "range 1 of list 0 (counted from 0) does not start beyond the end of the range before it";
    assert_told(refused(1, lists, 9), expected, (6, 1), sentence);
}

/// What is told of one list, by structs; where the list can be joined, the columns tell the same.
fn checked<P: Point>(list: &[Tariff<P>]) -> Result<(), Refusal> {
    let told = check(list);
    let columns = guineatwirl::list_events(&[list]).map(|_| ());
    assert!(columns == told || list.len() > MOST_RANGES, "{columns:?} and {told:?}");
    told
}

#[test]
fn one_list_as_it_is_typed() {
    let place = |range| Place { list: 0, range, index: range };
    assert_eq!(checked::<u32>(&[]), Ok(()));
    assert_eq!(checked(&[Tariff::new(u32::LEAST..=u32::GREATEST, 1)]), Ok(()));
    let halves = [Tariff::new(i64::LEAST..=-1, 1), Tariff::new(0..=i64::GREATEST, 1)];
    assert_eq!(checked(&halves), Ok(()));
    let [below, above] = halves;
    assert_eq!(checked(&[above, below]), Err(Refusal::OverlappingRange(place(1))));
    let turned = Tariff { start: i64::GREATEST, end: i64::LEAST, value: 1 };
    assert_eq!(checked(&[below, turned, above]), Err(Refusal::BackwardRange(place(1))));
    assert_eq!(checked(&[turned, turned]), Err(Refusal::BackwardRange(place(0))));

    let mut long: Vec<_> =
        (0..=MOST_RANGES as u32).map(|seat| Tariff::new(seat..=seat, 1)).collect();
    assert_eq!(checked(&long), Ok(()));
    long[MOST_RANGES].start = 2047;
    assert_eq!(checked(&long), Err(Refusal::OverlappingRange(place(MOST_RANGES))));
}

#[test]
fn unknown_combiner() {
    for combiner in [0, 6, u8::MAX] {
        let sentence = format!("there is no combiner {combiner}: they have the numbers 1 to 5");
        let expected = Refusal::UnknownCombiner { combiner };
        assert_told(refused(combiner, SOUND, 9), expected, (7, 0), &sentence);
    }
}

#[test]
fn no_room() {
    let expected = Refusal::NoRoom { needed: 2, room: 1 };
    let sentence = "2 rows are needed and the columns have room for 1";
    assert_told(refused(1, SOUND, 1), expected, (8, 2), sentence);
}

#[test]
fn is_an_error() {
    let boxed: Box<dyn std::error::Error + Send + Sync> = Box::new(refused(1, SOUND, 0));
    assert!(boxed.downcast_ref::<Refusal>().is_some());
}
