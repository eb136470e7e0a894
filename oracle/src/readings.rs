//! Readings of prices. After a join or a selection each is held against the rules at its point and
//! against `partition_point` over the columns; over columns of any kind, against the search
//! written out.

use guineatwirl::{PriceColumns, Refusal, lent};

use crate::call::{Columns, Lent, Operation, Point};
use crate::generator::{USUAL, even_columns, lists, lists_of_ranges, most_pieces};
use crate::held::Held;
use crate::random::Random;
use crate::rattle_side::{self, Proved};
use crate::reading;

/// How many joins are read, how many of the most ranges, and how many other columns, of each width.
const JOINS: u64 = 4000;
const CROWDED: u64 = 20;
const OTHERS: u64 = 20_000;

/// All readings of one width, up to the first difference.
pub fn run<T: Proved>(seed: u64) -> Result<(), String> {
    let width = T::WIDTH;
    let told = |part: &str, number: u64, difference: String| {
        format!("a difference in {part}, {width}, case {number}, seed {seed}\n\n{difference}")
    };
    let (part, mut after) = ("readings after joins", 0);
    for number in 0..JOINS + CROWDED {
        let random = &mut Random::of_case(seed, part, number);
        after += after_join::<T>(random, number >= JOINS)
            .map_err(|difference| told(part, number, difference))?;
    }
    println!("{width} {part}: {after} of {} joins and selections", JOINS + CROWDED);
    let (part, mut others) = ("readings of any columns", 0);
    for number in 0..OTHERS {
        let random = &mut Random::of_case(seed, part, number);
        others += of_any::<T>(random).map_err(|difference| told(part, number, difference))?;
    }
    println!("{width} {part}: {others} of {OTHERS} columns");
    Ok(())
}

/// A many-way join or a selection of random lists, and readings of what it wrote.
fn after_join<T: Proved>(random: &mut Random, crowded: bool) -> Result<u64, String> {
    let many_way = &Operation::OF_ANY_LISTS[1..];
    let operation = random.pick(many_way);
    let lent: Lent<T> = Lent::from_lists(&if crowded {
        lists_of_ranges(random, operation, 2048)
    } else {
        lists(random, operation, USUAL)
    });
    let mut columns = even_columns(random, operation, most_pieces(&lent));
    let answer = rattle_side::answer(operation, &lent, &mut columns);
    let Columns::Priced { starts, ends, values } = columns else {
        panic!("the columns are another operation's");
    };
    if answer.code != 0 {
        return Err(format!("{operation:?} is refused with code {}", answer.code));
    }
    let written = answer.number as usize;
    let held = Held {
        starts: starts[..written].to_vec(),
        ends: ends[..written].to_vec(),
        values: values[..written].to_vec(),
    };
    let points = points(random, &[&lent.starts, &lent.ends]);
    let differs =
        |&&point: &&T| held.partition_point(point) != reading::price(operation, &lent, point);
    if let Some(point) = points.iter().find(differs) {
        return Err(format!("at {point} partition_point does not find what the rules say\n"));
    }
    held.read(random, &points, |point| held.partition_point(point))
}

/// Columns of any lengths and contents, and readings of them.
fn of_any<T: Proved>(random: &mut Random) -> Result<u64, String> {
    let longest = random.pick(&[3, 20, 70]);
    let keys = random.pick(&[4, 50, T::GREATEST_KEY]);
    let column = |random: &mut Random| -> Vec<T> {
        let length = random.between(0, longest);
        (0..length).map(|_| T::from_key(random.between(0, keys))).collect()
    };
    let (mut starts, ends) = (column(random), column(random));
    if random.once_in(2) {
        starts.sort_unstable();
    }
    let length = random.between(0, longest);
    let values = (0..length).map(|_| random.word() as i64).collect();
    let held = Held { starts, ends, values };
    let points = points(random, &[&held.starts, &held.ends]);
    held.read(random, &points, |point| held.searched(point))
}

/// The points of some columns and their neighbours, both ends of the width, and others.
fn points<T: Point>(random: &mut Random, columns: &[&[T]]) -> Vec<T> {
    let mut keys: Vec<u64> = vec![0, T::GREATEST_KEY];
    for key in columns.iter().copied().flatten().map(|point| point.key()) {
        keys.extend([key.saturating_sub(1), key, key.saturating_add(1).min(T::GREATEST_KEY)]);
    }
    keys.extend((0..8).map(|_| random.between(0, T::GREATEST_KEY)));
    keys.into_iter().map(T::from_key).collect()
}

impl<T: Proved> Held<T> {
    /// Reads at points, one by one and all in a call, and tells how many, or the first price that is
    /// not the due one.
    fn read(
        &self,
        random: &mut Random,
        points: &[T],
        due: impl Fn(T) -> Option<i64>,
    ) -> Result<u64, String> {
        let pieces = self.lend();
        let due: Vec<Option<i64>> = points.iter().map(|&point| due(point)).collect();
        let one_by_one: Vec<_> = points.iter().map(|&p| lent::price_at(pieces, p)).collect();
        let (more, filled) = (random.below(3) as usize, random.word());
        let mut prices = vec![filled as i64; points.len() + more];
        let mut presences = vec![filled as u8; points.len() + random.below(3) as usize];
        let mut columns = PriceColumns { values: &mut prices, presences: &mut presences };
        let told = lent::prices_at(pieces, points, &mut columns);
        let many: Vec<_> = columns.prices(points.len()).collect();
        for (place, &point) in points.iter().enumerate() {
            if one_by_one[place] != due[place] || many[place] != due[place] {
                return Err(format!(
                    "{pieces:?}\nat {point}: {:?} is due, one by one {:?}, many {:?}\n",
                    due[place], one_by_one[place], many[place]
                ));
            }
        }
        let kept = prices[points.len()..].iter().all(|&price| price == filled as i64)
            && presences[points.len()..].iter().all(|&presence| presence == filled as u8);
        let written = prices.iter().zip(&due).all(|(&price, due)| price == due.unwrap_or(0));
        if told != Ok(points.len()) || !kept || !written {
            return Err(format!("{points:?}\n{told:?}, later places kept: {kept}\n"));
        }
        self.refused(points).map(|()| points.len() as u64)
    }

    /// Too little room by a place, in either column: nothing is written.
    fn refused(&self, points: &[T]) -> Result<(), String> {
        let pieces = self.lend();
        let needed = points.len();
        for (of_values, of_presences) in [(needed - 1, needed), (needed, needed - 1)] {
            let (mut prices, mut presences) = (vec![7; of_values], vec![7; of_presences]);
            let mut columns = PriceColumns { values: &mut prices, presences: &mut presences };
            let told = lent::prices_at(pieces, points, &mut columns);
            let untouched = prices.iter().all(|&x| x == 7) && presences.iter().all(|&x| x == 7);
            if told != Err(Refusal::NoRoom { needed, room: needed - 1 }) || !untouched {
                return Err(format!("{told:?} with too little room, untouched: {untouched}\n"));
            }
        }
        Ok(())
    }

    /// The price by the definition: what the piece at the place found says of the point.
    fn searched(&self, point: T) -> Option<i64> {
        let places = self.starts.len().min(self.ends.len()).min(self.values.len());
        let place = found(&self.starts[..places], point);
        let holds = |&place: &usize| self.starts[place] <= point && point <= self.ends[place];
        (place < places).then_some(place).filter(holds).map(|place| self.values[place])
    }
}

/// The place that is found: fewer than 16 starts are halved until one is left. More are halved until
/// no more than 16 are left, and of the 15 after the first of those, or after the 16th from the end,
/// as many are passed as are not beyond the point.
fn found<T: Point>(starts: &[T], point: T) -> usize {
    if starts.len() < 16 {
        return halved(starts, 1, point);
    }
    let first = halved(starts, 16, point).min(starts.len() - 16);
    first + starts[first + 1..first + 16].iter().filter(|&&start| start <= point).count()
}

/// The first of the places that are left when starts are halved until so many are left: the upper
/// half is kept where its first start is not beyond the point, else as many from the front as the
/// upper half has.
fn halved<T: Point>(starts: &[T], most: usize, point: T) -> usize {
    if starts.len() <= most {
        return 0;
    }
    let half = starts.len() / 2;
    let (front, upper) = (&starts[..starts.len() - half], &starts[half..]);
    if upper[0] <= point { half + halved(upper, most, point) } else { halved(front, most, point) }
}
