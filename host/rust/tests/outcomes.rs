//! Outcomes at the edges of what can be lent. The comparison with the crate has all the others.

use guineatwirl::{
    Combiner, LentLists, LentPieces, Lists, Piece, PieceColumns, Point, Prices, Refusal, Tariff,
    lent, list_events, multiway_full_join, multiway_inner_join, multiway_symmetric_difference,
    multiway_union, two_way_full_join, two_way_inner_join, two_way_left_join,
};

const NO_LISTS: [&[Tariff<u32>]; 0] = [];

#[test]
fn no_lists_at_all() {
    for combiner in Combiner::ALL {
        let whole = Piece { start: u32::LEAST, end: u32::GREATEST, value: 0 };
        assert_eq!(multiway_inner_join(combiner, &NO_LISTS), Ok(vec![whole]));
        assert_eq!(multiway_full_join(combiner, &NO_LISTS), Ok(vec![]));
    }
    assert_eq!(multiway_union(&NO_LISTS), Ok(vec![]));
    assert_eq!(multiway_symmetric_difference(&NO_LISTS), Ok(vec![]));
    assert_eq!(list_events(&NO_LISTS), Ok(vec![]));
}

#[test]
fn empty_lists() {
    let empty: [Tariff<i64>; 0] = [];
    assert_eq!(two_way_inner_join(&empty, &empty), Ok(vec![]));
    assert_eq!(two_way_left_join(&empty, &empty), Ok(vec![]));
    assert_eq!(two_way_full_join(&empty, &empty), Ok(vec![]));
    assert_eq!(multiway_inner_join(Combiner::Sum, &[empty, empty]), Ok(vec![]));
}

#[test]
fn the_whole_line() {
    let whole = [Tariff::new(i64::LEAST..=i64::GREATEST, i32::MIN)];
    let pieces = multiway_full_join(Combiner::Sum, &[whole; 16]).unwrap();
    let value = 16 * i64::from(i32::MIN);
    assert_eq!(pieces, [Piece { start: i64::LEAST, end: i64::GREATEST, value }]);
}

#[test]
fn as_many_ranges_as_can_be() {
    let list =
        |first: u32| (0..1024).map(move |n| Tariff::new(first + 4 * n..=first + 4 * n + 2, 1));
    let lists: Vec<Vec<_>> = vec![list(0).collect(), list(1).collect()];
    assert_eq!(two_way_full_join(&lists[0], &lists[1]).unwrap().len(), 3072);
    assert_eq!(multiway_union(&lists).unwrap().len(), 1);
    assert_eq!(list_events(&lists).unwrap().len(), 4096);
}

#[test]
fn later_places_keep_their_contents() {
    let lists = Lists::from_iter([[Tariff::new(1_u32..=5, 100)]]);
    let mut columns = PieceColumns { starts: &mut [7; 2], ends: &mut [8; 3], values: &mut [9; 4] };
    assert_eq!(lent::multiway_union(lists.lend(), &mut columns), Ok(1));
    assert_eq!(*columns.starts, [1, 7]);
    assert_eq!(*columns.ends, [5, 8, 8]);
    assert_eq!(*columns.values, [100, 9, 9, 9]);
    assert_eq!(columns.pieces(usize::MAX).count(), 2);
}

#[test]
fn a_faulty_right_list_is_list_1() {
    let (left, right) = ([Tariff::new(1_u32..=5, 1)], [Tariff { start: 3, end: 2, value: 1 }]);
    let Err(Refusal::BackwardRange(place)) = two_way_left_join(&left, &right) else {
        panic!("the right list is backward");
    };
    assert_eq!((place.list, place.range, place.index), (1, 0, 1));
}

#[test]
fn columns_of_any_lengths_are_judged() {
    let (points, values, counts) = ([1_u32, 2], [1, 2], [u32::MAX, 1]);
    for (starts, ends, of_values) in [(0, 2, 2), (2, 0, 2), (2, 2, 0), (2, 2, 2), (0, 0, 0)] {
        let lists = LentLists {
            starts: &points[..starts],
            ends: &points[..ends],
            values: &values[..of_values],
            counts: &counts,
        };
        let mut columns = PieceColumns { starts: &mut [], ends: &mut [0], values: &mut [] };
        let refusal = lent::multiway_union(lists, &mut columns).unwrap_err();
        assert_eq!(refusal.code(), 4);
    }
}

#[test]
fn prices_at_the_ends_of_a_width() {
    let list = [Tariff::new(i64::LEAST..=-1, i32::MIN), Tariff::new(1..=i64::GREATEST, i32::MAX)];
    let prices = Prices::from_iter(multiway_full_join(Combiner::Sum, &[list; 16]).unwrap());
    let points = [i64::LEAST, -1, 0, 1, i64::GREATEST];
    let (low, high) = (Some(16 * i64::from(i32::MIN)), Some(16 * i64::from(i32::MAX)));
    assert_eq!(prices.prices_at(&points), Ok(vec![low, low, None, high, high]));
    assert_eq!(points.map(|point| prices.price_at(point)), [low, low, None, high, high]);
}

#[test]
fn prices_of_columns_of_any_lengths() {
    let (starts, ends, values) = ([1_u32, 6], [4, 9], [100, 20]);
    for of_starts in 0..=2 {
        for of_ends in 0..=2 {
            for of_values in 0..=2 {
                let pieces = LentPieces {
                    starts: &starts[..of_starts],
                    ends: &ends[..of_ends],
                    values: &values[..of_values],
                };
                let all = of_starts.min(of_ends).min(of_values);
                assert_eq!(lent::price_at(pieces, 1), (all >= 1).then_some(100));
                assert_eq!(lent::price_at(pieces, 9), (all >= 2).then_some(20));
            }
        }
    }
}
