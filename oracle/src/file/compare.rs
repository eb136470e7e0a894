//! The comparison of files: every file through the reader and printer around the crate, and through
//! the proved function.

use crate::call::Answer;
use crate::compare::{Plan, guarded};
use crate::coverage::Coverage;
use crate::file::case::{Case, Known};
use crate::file::reading::Request;
use crate::file::{answers, damage, faults, heads, lengths, library, reading, sound, text};

/// Crowded files.
const CROWDED: u64 = 300;

/// What stands in a lent buffer before, and in what lies about it.
const SENTINEL: u8 = b'~';

/// So many bytes are watched on both sides of a lent buffer.
const MARGIN: usize = 67;

/// Every so many files go through the function to a string too.
const STRINGS: usize = 16;

/// A named part of the comparison.
type Part = (&'static str, fn(Plan) -> Box<dyn Iterator<Item = Case>>);

/// The parts. Half as many files as there are random cases are well formed, a quarter try every
/// room, and a quarter are damaged.
const PARTS: [Part; 17] = [
    ("example and boundary sheet", |_| Box::new(sound::sheet().into_iter())),
    ("list of answers.bin", |_| Box::new(answers::files().into_iter().map(Case::of))),
    ("two bytes or fewer", |_| Box::new(heads::every_start())),
    ("heads", |_| Box::new(heads::every_head())),
    ("every number of lists", |_| Box::new(heads::every_number_of_lists())),
    ("every set of faults", |_| Box::new(faults::every_set())),
    ("cut short", |plan| Box::new(damage::truncations(plan.seed))),
    ("one byte changed", |plan| Box::new(damage::changed_bytes(plan.seed))),
    ("a lone byte at the end", |plan| Box::new(damage::lone_bytes(plan.seed))),
    ("bytes left over", |plan| Box::new(damage::left_over(plan.seed))),
    ("damage at each record", |plan| Box::new(damage::at_each_record(plan.seed))),
    ("counts about the most ranges", |_| Box::new(lengths::counts_over())),
    ("about the greatest length", |plan| Box::new(lengths::about_the_longest(plan.seed))),
    ("well-formed lists", |plan| {
        let cases = 0..plan.random_cases.div_ceil(2);
        Box::new(cases.map(move |number| sound::well_formed(plan.seed, number)))
    }),
    ("crowded lists", |plan| {
        let crowded = (0..CROWDED).map(move |number| sound::crowded(plan.seed, number));
        Box::new([sound::sound(sound::longest_text())].into_iter().chain(crowded))
    }),
    ("every room", |plan| Box::new(sound::every_room(plan.seed, plan.random_cases.div_ceil(4)))),
    ("several damages", |plan| {
        let cases = 0..plan.random_cases.div_ceil(4);
        Box::new(cases.map(move |number| damage::damaged(plan.seed, number)))
    }),
];

/// Every part, every other file of it side by side. Tells how many files there were, or the first
/// difference, or what the function never answered.
pub fn run(plan: Plan) -> Result<u64, String> {
    let mut all = 0;
    let mut covered = Coverage::default();
    for (name, cases) in PARTS {
        let halves = std::thread::scope(|scope| {
            let half = |first| {
                scope.spawn(move || run_half(cases(plan).enumerate().skip(first).step_by(2)))
            };
            [0, 1].map(half).map(|half| half.join().expect("a panic in a case is caught"))
        });
        let mut count = 0;
        let mut proved = Coverage::default();
        for half in halves {
            let (cases, answered) = half.map_err(|difference| {
                format!("a difference in {name}, file, seed {}, {difference}", plan.seed)
            })?;
            count += cases;
            proved.add(answered);
        }
        println!("file {name}: {count} cases, by the library {proved}");
        all += count;
        covered.add(proved);
    }
    answers::compare_with_file()?;
    match covered.astray() {
        Some(astray) => Err(astray),
        None => Ok(all),
    }
}

/// Goes through cases. Tells how many there were and what the function answered, or the first
/// difference.
fn run_half(cases: impl Iterator<Item = (usize, Case)>) -> Result<(u64, Coverage<u8>), String> {
    let mut count = 0;
    let mut answered = Coverage::default();
    for (number, case) in cases {
        let told = check(number, &case).map_err(|difference| {
            let file: String = case.file.iter().map(|byte| format!("{byte:02X}")).collect();
            format!("case {number}\n\nfile:\n{file}\n\n{difference}")
        })?;
        if let Some((operation, code)) = told {
            answered.count(operation, code);
        }
        count += 1;
    }
    Ok((count, answered))
}

/// Holds the function's text, and what is known of a file, against the reader and printer around the
/// crate. Tells what the function answered, where there was room for it.
fn check(number: usize, case: &Case) -> Result<Option<(u8, u8)>, String> {
    let read = guarded("reading", || reading::read(&case.file))?;
    let mut due = String::new();
    guarded("crate", || text::print(&read, &mut due))?;
    check_known(&case.known, &read, &due)?;
    if number.is_multiple_of(STRINGS) {
        let found = guarded("library, to a string", || library::text(&case.file))?;
        if found != due {
            return Err(format!("due:\n{due}\nlibrary, to a string:\n{found}\n"));
        }
    }
    check_lent(&case.file, case.room.unwrap_or(due.len() + number % 3), &due)
}

/// Holds what the function leaves in a buffer with so much room, and about it, against the text.
fn check_lent(file: &[u8], room: usize, due: &str) -> Result<Option<(u8, u8)>, String> {
    let written = if due.len() <= room { due.len() } else { 0 };
    let mut left_due = vec![SENTINEL; MARGIN + room + MARGIN];
    left_due[MARGIN..][..written].copy_from_slice(&due.as_bytes()[..written]);
    let mut left = vec![SENTINEL; MARGIN + room + MARGIN];
    let lent = &mut left[MARGIN..][..room];
    let length = guarded("library", || library::print_into(file, lent))?;
    if length == written && left == left_due {
        return Ok(answered(&left[MARGIN..][..written]));
    }
    let [left_due, left] = [&left_due, &left].map(|bytes| bytes.escape_ascii());
    Err(format!(
        "due: {written} of {room} bytes\n{left_due}\n\nlibrary: {length} of {room} bytes\n{left}\n"
    ))
}

/// Holds what was read and is due against what is known.
fn check_known(known: &Known, read: &Result<Request, Answer>, due: &str) -> Result<(), String> {
    let agrees = match known {
        Known::Nothing => true,
        Known::Request(request) => read.as_ref() == Ok(request),
        Known::Refused(answer) => read.as_ref() == Err(answer),
        Known::Text(text) => due == *text,
    };
    if agrees { Ok(()) } else { Err(format!("known:\n{known:?}\n\nreading:\n{read:?}\n\n{due}")) }
}

/// What a text tells: the operation of a join with code 0, or 0 with the code of a refusal.
fn answered(text: &[u8]) -> Option<(u8, u8)> {
    let mut words = str::from_utf8(text).ok()?.split(' ');
    let (name, number) = (words.next()?, words.next()?.parse().ok()?);
    match name {
        "join" => Some((number, 0)),
        "refused" => Some((0, number)),
        _ => None,
    }
}
