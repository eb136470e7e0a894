//! The comparison: every case through the reading, the proved library and, where the lists are well
//! formed, the crate; and every file through the two printers.

use std::panic::{AssertUnwindSafe, catch_unwind};

use crate::call::{Operation, Outcome, Point};
use crate::case::{Case, Due};
use crate::coverage::Coverage;
use crate::rattle_side::{self, Proved};
use crate::small_lists::{Universe, every_set};
use crate::{answers, blaze_side, boundary, faults, file, generator, reading, readings, text};

/// Sets of lists taken whole: pairs over short lines, triples over shorter ones. The largest go
/// through a few operations only.
const UNIVERSES: [(&str, Universe); 6] = [
    ("pairs over 4 points, two values", universe(4, &[-3, 0], 2, &Operation::ALL)),
    ("pairs over 5 points, one value", universe(5, &[4], 2, &Operation::ALL)),
    (
        "pairs over 5 points, two values",
        universe(5, &[-3, 0], 2, &[Operation::Full(1), Operation::SymmetricDifference]),
    ),
    ("triples over 2 points, two values", universe(2, &[-3, 0], 3, Operation::OF_ANY_LISTS)),
    ("triples over 3 points, one value", universe(3, &[4], 3, Operation::OF_ANY_LISTS)),
    (
        "triples over 3 points, two values",
        universe(3, &[-3, 0], 3, &[Operation::Inner(1), Operation::Full(5), Operation::Union]),
    ),
];

const fn universe(
    points: u64,
    values: &'static [i32],
    lists: u32,
    operations: &'static [Operation],
) -> Universe {
    Universe { points, values, lists, operations }
}

/// Crowded cases of each width.
const CROWDED: u64 = 100;

/// Random event listings of each width, beside those among the random cases.
const LISTED: u64 = 100_000;

/// What the comparison is asked for: a seed, and how many random cases in all.
#[derive(Clone, Copy)]
pub struct Plan {
    pub seed: u64,
    pub random_cases: u64,
}

impl Default for Plan {
    fn default() -> Self {
        Self { seed: 1, random_cases: 400_000 }
    }
}

/// A named part of the comparison.
type Part<T> = (&'static str, Box<dyn Iterator<Item = Case<T>>>);

/// Everything, both widths side by side, then the files. Tells how many cases there were, or the
/// first difference, or a refusal that the library can give and never gave.
pub fn run(plan: Plan) -> Result<u64, String> {
    let (seats, instants) = std::thread::scope(|scope| {
        let seats = scope.spawn(|| run_width::<u32>(plan));
        let instants = run_width::<i64>(plan);
        (seats.join().expect("a panic in a case is caught"), instants)
    });
    let cases = seats? + instants?;
    answers::compare_with_file()?;
    Ok(cases + file::compare::run(plan)?)
}

fn run_width<T: Proved>(plan: Plan) -> Result<u64, String> {
    let width = T::WIDTH;
    let mut all = 0;
    let mut covered = Coverage::default();
    for (name, cases) in parts::<T>(plan) {
        let mut count = 0;
        let mut proved = Coverage::default();
        for case in cases {
            let code = check(&case).map_err(|difference| {
                let at = format!("{name}, {width}, case {}, seed {}", case.number, plan.seed);
                let call = text::call_lines(&case.call);
                format!("a difference in {at}\n\n{call}\n{difference}")
            })?;
            proved.count(case.call.operation.with_combiner(0), code);
            count += 1;
        }
        println!("{width} {name}: {count} cases, by the library {proved}");
        all += count;
        covered.add(proved);
    }
    all += crate::one_list::run::<T>(plan.seed)?;
    readings::run::<T>(plan.seed)?;
    match covered.missing() {
        Some((operation, code)) => {
            Err(format!("the library never refused {operation} of {width} with code {code}"))
        }
        None => Ok(all),
    }
}

/// The parts for one width. Half the random cases are well formed, a quarter try every room, and
/// a quarter are malformed.
fn parts<T: Point>(plan: Plan) -> Vec<Part<T>> {
    let seed = plan.seed;
    let quarter = plan.random_cases.div_ceil(8);
    let mut parts: Vec<Part<T>> = vec![
        ("boundary sheet", Box::new(boundary::sheet().into_iter())),
        ("calls of answers.txt", Box::new(answers::cases().into_iter())),
        ("each refusal", Box::new(faults::each_refusal(seed).into_iter())),
    ];
    for (name, universe) in UNIVERSES {
        parts.push((name, Box::new(every_set(universe))));
    }
    let well_formed = (0..2 * quarter).map(move |number| generator::well_formed(seed, number));
    let listed = (0..LISTED).map(move |number| generator::listed(seed, number));
    let crowded = (0..CROWDED).map(move |number| generator::crowded(seed, number));
    let malformed = (0..quarter).map(move |number| faults::malformed(seed, number));
    parts.push(("well-formed lists", Box::new(well_formed)));
    parts.push(("event listings", Box::new(listed)));
    parts.push(("crowded lists", Box::new(crowded)));
    parts.push(("every room", Box::new(generator::every_room(seed, quarter))));
    parts.push(("malformed lists", Box::new(malformed)));
    parts
}

/// Holds the library, and the outcome that is due for a case, against the reading. Tells the code
/// of the library.
fn check<T: Proved>(case: &Case<T>) -> Result<u8, String> {
    let call = &case.call;
    let read = guarded("reading", || reading::outcome(call))?;
    let proved = guarded("library", || rattle_side::outcome(call))?;
    agree("library", &proved, &read)?;
    let from_lists = "library, from lists to vectors";
    if let Some(found) = guarded(from_lists, || rattle_side::outcome_from_lists(call))? {
        agree(from_lists, &found, &read)?;
    }
    match &case.due {
        Due::TheCrate => agree("crate", &guarded("crate", || blaze_side::outcome(call))?, &read),
        Due::Refused(answer) => {
            let refused = Outcome { answer: *answer, columns: call.columns.clone() };
            agree("planted", &refused, &read)
        }
        Due::Sheet(pieces) => {
            let crates = guarded("crate", || blaze_side::pieces(call.operation, &call.lent))?;
            if crates != *pieces {
                return Err(format!("sheet:\n{pieces:?}\n\ncrate:\n{crates:?}\n"));
            }
            agree("crate", &blaze_side::outcome(call), &read)
        }
    }?;
    Ok(proved.answer.code)
}

fn agree<T: Point>(name: &str, due: &Outcome<T>, read: &Outcome<T>) -> Result<(), String> {
    if due == read {
        return Ok(());
    }
    let whole = |outcome| text::outcome_lines(outcome, usize::MAX);
    Err(format!("{name}:\n{}\nreading:\n{}", whole(due), whole(read)))
}

/// The result of a program, or that it panicked.
pub fn guarded<R>(name: &str, program: impl FnOnce() -> R) -> Result<R, String> {
    catch_unwind(AssertUnwindSafe(program)).map_err(|_| format!("{name}:\npanicked\n"))
}
