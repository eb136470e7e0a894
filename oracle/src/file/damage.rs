//! Damaged tariff files, with the refusal that is due where the damage tells it.

use crate::call::{Answer, Operation};
use crate::file::case::{Case, Known};
use crate::file::reading::Request;
use crate::file::sound::{longest, request, request_of_ranges, small_requests};
use crate::file::writing::{
    OPERATIONS, Record, Topic, head, list, numbers, range, records, written,
};
use crate::generator::{SMALL, USUAL};
use crate::random::Random;

/// Small requests of each operation whose files are changed byte by byte.
const CHANGED: usize = 3;

/// Small requests of each operation whose files are cut and lengthened.
const CUT: usize = 20;

/// How many ranges a file has that is damaged at each of its records.
const RANGES: u64 = 120;

/// Every truncation of small files.
pub fn truncations(seed: u64) -> impl Iterator<Item = Case> {
    small_requests(seed, CUT).into_iter().flat_map(|request| {
        let file = written(&request);
        let records = records(&request.lent);
        (0..file.len()).map(move |length| {
            let cut = records.iter().rfind(|record| record.offset <= length).expect("the head");
            Case::refused(file[..length].to_vec(), 11, cut.offset)
        })
    })
}

/// Every change of a single byte of small files.
pub fn changed_bytes(seed: u64) -> impl Iterator<Item = Case> {
    small_requests(seed, CHANGED).into_iter().flat_map(|request| {
        let file = written(&request);
        let records = records(&request.lent);
        (0..file.len() * 255).map(move |number| {
            let (offset, change) = (number / 255, (number % 255) as u8 + 1);
            let marked = records.iter().find(|record| record.mark().contains(&offset));
            changed(&file, offset, change, marked.copied())
        })
    })
}

/// Small files that break off after any one byte where a record would start.
pub fn lone_bytes(seed: u64) -> impl Iterator<Item = Case> {
    small_requests(seed, 1).into_iter().flat_map(|request| {
        let file = written(&request);
        records(&request.lent).into_iter().flat_map(move |Record { offset, .. }| {
            let file = file[..offset].to_vec();
            (0..=255).map(move |byte| Case::refused([&file[..], &[byte]].concat(), 11, offset))
        })
    })
}

/// Small files with bytes left over: any one byte, and records more.
pub fn left_over(seed: u64) -> impl Iterator<Item = Case> {
    small_requests(seed, CUT).into_iter().flat_map(|request| {
        let file = written(&request);
        let bytes = (0..=255).map(|byte| vec![byte]);
        let records = [list(0), list(1), range(1, 1, 1), file.clone(), vec![0; 1000]];
        bytes.chain(records).map(move |more| {
            let length = file.len();
            Case::refused([file.clone(), more].concat(), 12, length)
        })
    })
}

/// Files damaged at each record in turn: small ones, larger ones and one as large as can be.
pub fn at_each_record(seed: u64) -> impl Iterator<Item = Case> {
    let larger = move |(number, &operation): (usize, &Operation)| {
        let random = &mut Random::of_case(seed, "at each record", number as u64);
        request_of_ranges(random, operation, RANGES)
    };
    let requests = small_requests(seed, CUT)
        .into_iter()
        .chain(OPERATIONS.iter().enumerate().map(larger))
        .chain([longest(Operation::Full(1))]);
    requests.flat_map(at_records)
}

/// The file of a request, damaged at each record in turn.
pub fn at_records(request: Request) -> impl Iterator<Item = Case> {
    let file = written(&request);
    let records = records(&request.lent);
    records.into_iter().flat_map(move |record| at_record(&request, &file, record))
}

/// What can be done to one record, whatever it is about, and to what it says.
fn at_record(request: &Request, file: &[u8], record: Record) -> Vec<Case> {
    let offset = record.offset;
    let (before, rest) = file.split_at(offset);
    let (own, after) = rest.split_at(record.length());
    let (less, last) = own.split_at(own.len() - 1);
    let cut = |length: usize| Case::refused(file[..offset + length].to_vec(), 11, offset);
    let mut cases = vec![
        changed(file, offset, 1, Some(record)),
        changed(file, offset + 1, 0x80, Some(record)),
        cut(0),
        cut(1),
        cut(2),
        cut(less.len()),
        Case::of([before, after].concat()),
        Case::of([before, own, own, after].concat()),
        Case::of([before, less, after].concat()),
        Case::of([before, own, last, after].concat()),
    ];
    cases.extend(miswritten(request, record).into_iter().map(|(own, known)| {
        let file = [before, &own, after].concat();
        Case { known: known.map_or(Known::Nothing, Known::Refused), ..Case::of(file) }
    }));
    cases
}

/// What a record can say that is wrong, with the refusal where it is known.
fn miswritten(request: &Request, record: Record) -> Vec<(Vec<u8>, Option<Answer>)> {
    let Request { operation, lent } = request;
    match record.topic {
        Topic::Head => {
            let [number, combiner] = numbers(*operation);
            let lists = lent.counts.len() as u16;
            let counts = [lists + 1, lists.saturating_sub(1)];
            counts.map(|lists| (head(number, combiner, lists), None)).to_vec()
        }
        Topic::List(ranges) => {
            let counts = [ranges + 1, ranges.saturating_sub(1), 0, 2048, 2049, 65_535];
            counts.map(|count| (list(count), None)).to_vec()
        }
        Topic::Range(place, first) => {
            let (end, value) = (lent.ends[place], lent.values[place]);
            let backward = range(i64::MAX, i64::MIN, value);
            let mut ranges = vec![(backward, Some(Answer::new(5, place)))];
            if !first {
                let overlapping = range(lent.ends[place - 1], end, value);
                ranges.push((overlapping, Some(Answer::new(6, place))));
            }
            ranges
        }
    }
}

/// A file with one byte changed, which is in the mark of a record or in none.
fn changed(file: &[u8], offset: usize, change: u8, marked: Option<Record>) -> Case {
    let mut file = file.to_vec();
    file[offset] ^= change;
    match marked {
        Some(record) => Case::refused(file, 10, record.offset),
        None => Case::of(file),
    }
}

/// A random file that has been damaged several times.
pub fn damaged(seed: u64, number: u64) -> Case {
    let random = &mut Random::of_case(seed, "damaged file", number);
    let operation = random.pick(OPERATIONS);
    let size = random.pick(&[SMALL, SMALL, USUAL]);
    let mut file = written(&request(random, operation, size));
    for _ in 0..random.between(1, 3) {
        damage(random, &mut file);
    }
    Case::of(file)
}

fn damage(random: &mut Random, file: &mut Vec<u8>) {
    let length = file.len() as u64;
    let at = random.between(0, length) as usize;
    let any = random.word() as u8;
    let byte = random.pick(&[0, 1, 0x4A, 0x48, 0x4C, 0x52, 0x7F, 0x80, 0xFF, any]);
    match random.below(6) {
        0 => file.insert(at, byte),
        1 => file.truncate(at),
        2 => file.push(byte),
        _ if at == file.len() => {}
        3 => drop(file.remove(at)),
        _ => file[at] = byte,
    }
}
