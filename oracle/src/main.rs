//! Runs the comparison, or writes a fixed list of answers.

use std::io::Write;
use std::process::ExitCode;

use oracle::compare::{self, Plan};
use oracle::file;

const HELP: &str = "\
oracle [SEED [CASES]]   compare the crate, the reading of the rules and the proved library
oracle answers          print the fixed list of answers (answers.txt)
oracle files            write the fixed list of files and texts (answers.bin) to standard output
oracle programs JOIN_PRINTER HOUSE
                        compare two programs with the library, on the files of answers.bin
oracle --help           print this

SEED   seed of the random cases, a number (default 1)
CASES  how many random cases, both widths together, and how many random files (default 400000)

The comparison prints one line for each part. At the first difference or panic it prints the
case and the answers of the two that differ, and ends with exit code 1; so it does when the
library never gave a refusal that one of its operations can give.
";

fn main() -> ExitCode {
    let arguments: Vec<String> = std::env::args().skip(1).collect();
    let arguments: Vec<&str> = arguments.iter().map(String::as_str).collect();
    match arguments.as_slice() {
        ["answers"] => print!("{}", oracle::answers::text()),
        ["files"] => {
            let list = file::answers::bytes();
            std::io::stdout().write_all(&list).expect("standard output takes the list");
        }
        ["programs", join_printer, house] => {
            return told(file::programs::compare(join_printer, house));
        }
        ["--help"] => print!("{HELP}"),
        numbers => match plan(numbers) {
            Some(plan) => return told(compare::run(plan)),
            None => {
                eprint!("{HELP}");
                return ExitCode::from(2);
            }
        },
    }
    ExitCode::SUCCESS
}

/// The plan that the numbers ask for, or none where they are not numbers or too many.
fn plan(numbers: &[&str]) -> Option<Plan> {
    let mut plan = Plan::default();
    let (seed, cases) = (numbers.first(), numbers.get(1));
    if let Some(seed) = seed {
        plan.seed = seed.parse().ok()?;
    }
    if let Some(cases) = cases {
        plan.random_cases = cases.parse().ok()?;
    }
    (numbers.len() <= 2).then_some(plan)
}

fn told(compared: Result<u64, String>) -> ExitCode {
    match compared {
        Ok(cases) => {
            println!("oracle: {cases} cases, 0 differences");
            ExitCode::SUCCESS
        }
        Err(finding) => {
            println!("oracle: {finding}");
            ExitCode::FAILURE
        }
    }
}
