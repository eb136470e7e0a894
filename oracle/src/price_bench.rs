//! The benchmark of readings: random points over the same pieces by the proved library, by
//! `partition_point` over the columns and by a `BTreeMap` of the pieces by their starts; one by
//! one, and many in a call.

use std::collections::BTreeMap;
use std::hint::black_box;

use guineatwirl::{PriceColumns, lent};

use crate::held::Held;
use crate::random::Random;
use crate::rattle_side::Proved;
use crate::timing::{best, span};

/// How many points are read in a run.
const POINTS: usize = 4096;

/// How many pieces the columns have: the most is what 2,048 ranges can give.
const PIECES: [usize; 3] = [16, 256, 4095];

/// The titles of the rows.
const ONE_BY_ONE: &str = "one by one";
const MANY: &str = "many";

/// The best times of a row, in nanoseconds for each reading.
struct Times {
    library: f64,
    partition_point: f64,
    tree: f64,
}

impl Times {
    /// The library's time over the faster of the two others.
    fn ratio(&self) -> f64 {
        self.library / self.partition_point.min(self.tree)
    }
}

/// One row of the table.
pub struct Row {
    title: &'static str,
    width: &'static str,
    pieces: usize,
    times: Times,
}

/// All rows, of both widths.
pub fn rows() -> Vec<Row> {
    let both = |pieces| [rows_of::<u32>("u32", pieces), rows_of::<i64>("i64", pieces)];
    PIECES.into_iter().flat_map(both).flatten().collect()
}

fn rows_of<T: Proved>(width: &'static str, count: usize) -> [Row; 2] {
    let random = &mut Random::of_case(7, "readings", count as u64);
    let pieces = &ascending::<T>(random, count);
    let last = pieces.ends[count - 1].key();
    let points: Vec<T> = (0..POINTS).map(|_| T::from_key(random.between(0, last))).collect();
    let row = |title, times| Row { title, width, pieces: count, times };
    [row(ONE_BY_ONE, one_by_one(pieces, &points)), row(MANY, many(pieces, &points))]
}

/// The ratios of the readings.
pub fn summary(rows: &[Row]) -> String {
    let ratios =
        |title| span(rows.iter().filter(|row| row.title == title).map(|row| row.times.ratio()));
    format!(
        "- Readings of prices one by one take {} of the time of the faster of `partition_point` and a `BTreeMap`, many in a \
         call {}.\n",
        ratios(ONE_BY_ONE),
        ratios(MANY),
    )
}

/// The table of both widths, with the library's time over the faster of the two others.
pub fn table(rows: &[Row]) -> String {
    let mut text = String::from(
        "| readings | width | pieces | library | partition_point | BTreeMap | library / faster |\n\
         |---|---|---|---|---|---|---|\n",
    );
    for Row { title, width, pieces, times } in rows {
        let Times { library, partition_point, tree } = times;
        let ratio = times.ratio();
        text += &format!(
            "| {title} | {width} | {pieces} | {library:.1} | {partition_point:.1} | {tree:.1} | {ratio:.2} |\n"
        );
    }
    text
}

/// Each price is added up.
fn one_by_one<T: Proved>(pieces: &Held<T>, points: &[T]) -> Times {
    let tree = tree(pieces);
    let sum =
        |read: &dyn Fn(T) -> Option<i64>| -> i64 { points.iter().filter_map(|&p| read(p)).sum() };
    let sums = [
        sum(&|p| lent::price_at(pieces.lend(), p)),
        sum(&|p| pieces.partition_point(p)),
        sum(&|p| in_tree(&tree, p)),
    ];
    assert!(sums[0] == sums[1] && sums[0] == sums[2], "all sides read the same prices");
    Times {
        library: best(POINTS, || -> i64 {
            let pieces = black_box(pieces.lend());
            points.iter().filter_map(|&p| lent::price_at(pieces, p)).sum()
        }),
        partition_point: best(POINTS, || -> i64 {
            let pieces = black_box(pieces);
            points.iter().filter_map(|&p| pieces.partition_point(p)).sum()
        }),
        tree: best(POINTS, || -> i64 {
            let tree = black_box(&tree);
            points.iter().filter_map(|&p| in_tree(tree, p)).sum()
        }),
    }
}

/// Each price is written to columns, as the library does.
fn many<T: Proved>(pieces: &Held<T>, points: &[T]) -> Times {
    let tree = tree(pieces);
    let (mut values, mut presences) = (vec![0; POINTS], vec![0; POINTS]);
    let columns = &mut PriceColumns { values: &mut values, presences: &mut presences };
    let library = best(POINTS, || lent::prices_at(black_box(pieces.lend()), points, columns));
    let partition_point = best(POINTS, || {
        let pieces = black_box(pieces);
        write(points, columns, |p| pieces.partition_point(p));
    });
    let tree = best(POINTS, || {
        let tree = black_box(&tree);
        write(points, columns, |p| in_tree(tree, p));
    });
    Times { library, partition_point, tree }
}

fn write<T: Copy>(points: &[T], columns: &mut PriceColumns<'_>, read: impl Fn(T) -> Option<i64>) {
    let rows = columns.values.iter_mut().zip(&mut *columns.presences);
    for (&point, (value, presence)) in points.iter().zip(rows) {
        let price = read(point);
        *value = price.unwrap_or(0);
        *presence = u8::from(price.is_some());
    }
}

/// Ascending pieces, with gaps between some.
fn ascending<T: Proved>(random: &mut Random, count: usize) -> Held<T> {
    let (mut starts, mut ends, mut values) = (Vec::new(), Vec::new(), Vec::new());
    let mut next = 0;
    for _ in 0..count {
        let start = next + if random.once_in(2) { 0 } else { random.between(1, 100) };
        let end = start + random.below(100);
        next = end + 1;
        starts.push(T::from_key(start));
        ends.push(T::from_key(end));
        values.push(random.between(0, 900) as i64);
    }
    Held { starts, ends, values }
}

fn tree<T: Proved>(pieces: &Held<T>) -> BTreeMap<T, (T, i64)> {
    let ranges = pieces.starts.iter().zip(&pieces.ends);
    ranges.zip(&pieces.values).map(|((&start, &end), &value)| (start, (end, value))).collect()
}

fn in_tree<T: Ord + Copy>(tree: &BTreeMap<T, (T, i64)>, point: T) -> Option<i64> {
    let (_, &(end, value)) = tree.range(..=point).next_back()?;
    (point <= end).then_some(value)
}
