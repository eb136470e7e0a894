//! The benchmark: the proved library beside the crate, in one process, on the same lists. Each time
//! is the best of many; the library's include its form check and all its passes: with room for the
//! most pieces that there can be, and with room for just the pieces that there are, where a join
//! counts them first. The library is called over the lent columns of its Rust package, and one
//! operation also without the package. The crate's iterators are drained into the same columns.
//! Tariff files go from bytes to text, beside the oracle's reader and printer around the crate.
//! Prices are read at points, beside `partition_point` and a `BTreeMap`. What is printed is what
//! docs/PERFORMANCE.md has: a summary, and the three tables.

use oracle::call::{Columns, Lent, MOST_RANGES, Operation, Tariff};
use oracle::file::reading::{self, Request};
use oracle::file::{library, text, writing};
use oracle::random::Random;
use oracle::timing::{best, span};
use oracle::{bare, blaze_side, price_bench, rattle_side};

/// How ranges are strewn: the widest gap between them, and the longest range.
const STREWN: [(&str, u64, u64); 2] = [("dense", 3, 6), ("spread", 1000, 10)];

/// One row: the best times, in nanoseconds for each range.
struct Row {
    title: &'static str,
    lists: u64,
    ranges: usize,
    strewn: &'static str,
    by_crate: f64,
    by_library: f64,
    /// Of an operation that has a counting pass.
    counted: Option<f64>,
}

/// One row of the files: the best times, in nanoseconds for each range.
struct FileRow {
    title: &'static str,
    lists: u64,
    strewn: &'static str,
    bytes: usize,
    by_crate: f64,
    by_library: f64,
}

fn main() {
    let two_way = [Operation::TwoWayInner, Operation::TwoWayLeft, Operation::TwoWayFull];
    let two_way = rows(&two_way, &[2], MOST_RANGES);
    let listing = rows(&[Operation::Events], &[2, 4, 16], MOST_RANGES);
    let joins = [Operation::Inner(1), Operation::Inner(2), Operation::Full(1), Operation::Full(2)];
    let mut joins = rows(&joins, &[2, 4, 16], MOST_RANGES);
    for ranges in [MOST_RANGES / 8, MOST_RANGES / 4, MOST_RANGES / 2] {
        joins.extend(rows(&[Operation::Full(1)], &[4], ranges));
    }
    let selections = [Operation::Union, Operation::SymmetricDifference];
    let selections = rows(&selections, &[2, 4, 16], MOST_RANGES);
    let files = file_rows();
    let readings = price_bench::rows();
    print!("{}", summary(&two_way, &listing, &joins, &selections));
    print!("{}", packaging());
    print!("{}", file_summary(&files));
    println!("{}", price_bench::summary(&readings));
    println!(
        "| operation | lists | ranges | strewn | crate | library | counted | library / crate | counted / crate |"
    );
    println!("|---|---|---|---|---|---|---|---|---|");
    for row in two_way.iter().chain(&listing).chain(&joins).chain(&selections) {
        println!("{}", line(row));
    }
    println!();
    println!(
        "| file | lists | ranges | strewn | bytes of text | ordinary | library | library / ordinary |"
    );
    println!("|---|---|---|---|---|---|---|---|");
    for row in &files {
        println!("{}", file_line(row));
    }
    print!("\n{}", price_bench::table(&readings));
}

fn rows(operations: &[Operation], list_counts: &[u64], ranges: usize) -> Vec<Row> {
    let mut rows = Vec::new();
    for &operation in operations {
        for (strewn, gap, length) in STREWN {
            for &count in list_counts {
                rows.push(measured(operation, strewn, &lists(count, ranges, gap, length)));
            }
        }
    }
    rows
}

fn measured(operation: Operation, strewn: &'static str, lent: &Lent<i64>) -> Row {
    let ranges = lent.starts.len();
    let mut roomy = columns(operation, 2 * MOST_RANGES);
    let by_crate = best(ranges, || blaze_side::drain(operation, lent, &mut roomy));
    let by_library = best(ranges, || rattle_side::answer(operation, lent, &mut roomy));
    let written = rattle_side::answer(operation, lent, &mut roomy);
    let mut tight = columns(operation, written.number as usize);
    let counted = (operation != Operation::Events)
        .then(|| best(ranges, || rattle_side::answer(operation, lent, &mut tight)));
    let lists = lent.counts.len() as u64;
    Row { title: title(operation), lists, ranges, strewn, by_crate, by_library, counted }
}

/// Files of the most ranges, from bytes to text.
fn file_rows() -> Vec<FileRow> {
    let two_way = [Operation::TwoWayInner, Operation::TwoWayLeft, Operation::TwoWayFull];
    let joins = [Operation::Inner(1), Operation::Full(1), Operation::Full(2)];
    let selections = [Operation::Union, Operation::SymmetricDifference];
    let mut rows = Vec::new();
    for operation in two_way.into_iter().chain(joins).chain(selections) {
        let list_counts: &[u64] = if operation.is_two_way() { &[2] } else { &[2, 16] };
        for (strewn, gap, length) in STREWN {
            for &count in list_counts {
                let lent = lists(count, MOST_RANGES, gap, length);
                rows.push(measured_file(strewn, &Request { operation, lent }));
            }
        }
    }
    rows
}

fn measured_file(strewn: &'static str, request: &Request) -> FileRow {
    let file = writing::written(request);
    let mut ordinary = String::with_capacity(library::MOST_TEXT);
    let mut text = vec![0; library::MOST_TEXT];
    let by_crate = best(MOST_RANGES, || {
        ordinary.clear();
        text::print(&reading::read(&file), &mut ordinary);
    });
    let by_library = best(MOST_RANGES, || library::print_into(&file, &mut text));
    let bytes = library::print_into(&file, &mut text);
    assert_eq!(&text[..bytes], ordinary.as_bytes(), "the two print the same");
    let lists = request.lent.counts.len() as u64;
    FileRow { title: title(request.operation), lists, strewn, bytes, by_crate, by_library }
}

fn title(operation: Operation) -> &'static str {
    match operation {
        Operation::TwoWayInner => "two-way inner",
        Operation::TwoWayLeft => "two-way left",
        Operation::TwoWayFull => "two-way full",
        Operation::Events => "event listing",
        Operation::Inner(1) => "many-way inner, sum",
        Operation::Inner(2) => "many-way inner, largest",
        Operation::Full(1) => "many-way full, sum",
        Operation::Full(2) => "many-way full, largest",
        Operation::Union => "union",
        Operation::SymmetricDifference => "symmetric difference",
        _ => unreachable!("not measured"),
    }
}

fn line(row: &Row) -> String {
    let Row { title, lists, ranges, strewn, by_crate, by_library, counted } = row;
    let ratio = by_library / by_crate;
    let counted = match counted {
        Some(time) => (format!("{time:.1}"), format!("{:.2}", time / by_crate)),
        None => Default::default(),
    };
    format!(
        "| {title} | {lists} | {ranges} | {strewn} | {by_crate:.1} | {by_library:.1} | {} | {ratio:.2} | {} |",
        counted.0, counted.1
    )
}

fn file_line(row: &FileRow) -> String {
    let FileRow { title, lists, strewn, bytes, by_crate, by_library } = row;
    let ratio = by_library / by_crate;
    format!(
        "| {title} | {lists} | {MOST_RANGES} | {strewn} | {bytes} | {by_crate:.1} | {by_library:.1} | {ratio:.2} |"
    )
}

/// The ratios of the files.
fn file_summary(rows: &[FileRow]) -> String {
    let ratios = span(rows.iter().map(|row| row.by_library / row.by_crate));
    format!(
        "- Tariff files take {ratios} of the time of an ordinary reader and printer around the crate.\n"
    )
}

/// The ratios of each kind of operation, what a counting pass costs, and what grows.
fn summary(two_way: &[Row], listing: &[Row], joins: &[Row], selections: &[Row]) -> String {
    let whole = |rows: &[Row]| span(rows.iter().map(|row| row.by_library / row.by_crate));
    let counted =
        |rows: &[Row]| span(rows.iter().filter_map(|row| Some(row.counted? / row.by_crate)));
    let counting =
        |rows: &[Row]| span(rows.iter().filter_map(|row| Some(row.counted? / row.by_library)));
    // Two events in so many nanoseconds, told by the microsecond.
    let events = |time: fn(&Row) -> f64| span(listing.iter().map(|row| 2000.0 / time(row)));
    format!(
        "- Two-way joins take {} of the crate's time, with a counting pass {}.\n\
         - The event listing takes {} of the crate's time: {} million events a second, the crate {}.\n\
         - Many-way joins take {} of the crate's time, with a counting pass {}.\n\
         - Selections take {} of the crate's time, with a counting pass {}.\n\
         - With a counting pass two-way joins take {} times as long as without, many-way joins {} times, selections {} times.\n\
         - From 2 to 16 lists the cost of a range in a many-way join grows {} times, in a selection {} times; from 256 to \
         2,048 ranges in a many-way join {} times.\n",
        whole(two_way),
        counted(two_way),
        whole(listing),
        events(|row| row.by_library),
        events(|row| row.by_crate),
        whole(joins),
        counted(joins),
        whole(selections),
        counted(selections),
        counting(two_way),
        counting(joins),
        counting(selections),
        growth(joins, (2, MOST_RANGES), (16, MOST_RANGES)),
        growth(selections, (2, MOST_RANGES), (16, MOST_RANGES)),
        growth(joins, (4, MOST_RANGES / 8), (4, MOST_RANGES)),
    )
}

/// What the package adds to a C function, over lent columns and from lists to a vector.
fn packaging() -> String {
    let (operation, combiner) = (Operation::Full(1), guineatwirl::Combiner::Sum);
    let (strewn, gap, length) = STREWN[0];
    let lent = &lists(4, MOST_RANGES, gap, length);
    let of_lists = rattle_side::lists(lent).expect("the columns go together");
    let mut columns = columns(operation, 2 * MOST_RANGES);
    let answers = [
        bare::full_join(combiner.number(), lent, &mut columns),
        rattle_side::answer(operation, lent, &mut columns),
    ];
    assert_eq!(answers[0], answers[1], "the package answers what the C function does");
    let bare = best(MOST_RANGES, || bare::full_join(combiner.number(), lent, &mut columns));
    let packaged = best(MOST_RANGES, || rattle_side::answer(operation, lent, &mut columns));
    let vector = best(MOST_RANGES, || guineatwirl::multiway_full_join(combiner, &of_lists));
    format!(
        "- A range of a {}, of 4 lists, {strewn}, takes {bare:.1} ns through the bare C function, {:.2} times as long \
         through the package's lent columns ({packaged:.1} ns) and {:.2} times as long from lists to a vector ({vector:.1} ns).\n",
        title(operation),
        packaged / bare,
        vector / bare,
    )
}

/// How the cost for each range grows from the rows of so many lists and ranges to their like.
fn growth(rows: &[Row], from: (u64, usize), to: (u64, usize)) -> String {
    let of = |size| rows.iter().filter(move |row| (row.lists, row.ranges) == size);
    let alike = |a: &Row, b: &Row| a.title == b.title && a.strewn == b.strewn;
    let factor =
        |row: &Row| Some(of(to).find(|other| alike(other, row))?.by_library / row.by_library);
    span(of(from).filter_map(factor))
}

/// So many instants' lists that have so many ranges together.
fn lists(count: u64, ranges: usize, gap: u64, length: u64) -> Lent<i64> {
    let random = &mut Random::of_case(7, "bench", count * 10_000 + gap);
    let list = |_| {
        let mut next = 0;
        let range = |_| {
            let start = next + random.between(0, gap) as i64;
            let end = start + random.between(1, length) as i64 - 1;
            next = end + 1;
            Tariff { start, end, value: random.between(0, 900) as i32 }
        };
        (0..ranges as u64 / count).map(range).collect()
    };
    Lent::from_lists(&(0..count).map(list).collect::<Vec<Vec<_>>>())
}

/// Columns of an operation with so much room.
fn columns(operation: Operation, room: usize) -> Columns<i64> {
    match operation.column_count() {
        4 => Columns::Events {
            kinds: vec![0; room],
            points: vec![0; room],
            lists: vec![0; room],
            values: vec![0; room],
        },
        5 => Columns::Sides {
            starts: vec![0; room],
            ends: vec![0; room],
            lefts: vec![0; room],
            rights: vec![0; room],
            presences: vec![0; room],
        },
        _ => Columns::Priced { starts: vec![0; room], ends: vec![0; room], values: vec![0; room] },
    }
}
