//! The text of a house, as a planner types it.

use guineatwirl::{Combiner, MOST_LISTS, MOST_RANGES, Tariff};

use crate::house::{House, List};
use crate::operation::{Operation, combiner_named, combiner_names, operation_names};
use crate::words::{Fault, Line, Position, Word, fault, lines};

const INSTANTS: &str = "an instant is from -9223372036854775808 to 9223372036854775807";
const VALUES: &str = "a value is from -2147483648 to 2147483647 pence";

/// The house that a text says, or the first thing that is wrong with it. What is said is within the
/// limits, and its lists are well formed.
pub fn house(text: &str) -> Result<House, Fault> {
    let mut lines = lines(text).filter(|line| !line.words.is_empty());
    let Some(first) = lines.next() else {
        return fault(Position::after(text), "the text has no join");
    };
    let (operation, combiner) = join(&first)?;
    let mut typed = Typed { operation, lists: Vec::new(), ranges: 0 };
    for line in lines {
        typed.take(&line)?;
    }
    if operation.two_way && typed.lists.len() != 2 {
        let what = format!("{} takes 2 lists, and there are {}", operation.name, typed.lists.len());
        return fault(first.words[1].position, what);
    }
    let lists = typed.lists.into_iter().map(TypedList::list).collect();
    Ok(House { operation, combiner, lists })
}

/// The line that says what is asked for.
fn join(line: &Line<'_>) -> Result<(&'static Operation, Option<Combiner>), Fault> {
    let first = line.word(0, "join")?;
    if first.text != "join" {
        return fault(first.position, "the first line is a join, as: join full sum");
    }
    let word = line.word(1, &format!("the operation ({})", operation_names()))?;
    let Some(operation) = Operation::named(word.text) else {
        let what = format!("there is no operation {}: {}", word.quoted(), operation_names());
        return fault(word.position, what);
    };
    if !operation.combines {
        return match line.words.get(2) {
            None => Ok((operation, None)),
            Some(word) => fault(word.position, format!("{} takes no combiner", operation.name)),
        };
    }
    let word = line.word(2, &format!("the combiner ({})", combiner_names()))?;
    let Some(combiner) = combiner_named(word.text) else {
        let what = format!("there is no combiner {}: {}", word.quoted(), combiner_names());
        return fault(word.position, what);
    };
    line.ends_after(3)?;
    Ok((operation, Some(combiner)))
}

/// What was typed so far.
struct Typed {
    operation: &'static Operation,
    lists: Vec<TypedList>,
    ranges: usize,
}

/// A list, the line that names it, and the line of its last range.
struct TypedList {
    name: String,
    line: usize,
    ranges: Vec<Tariff<i64>>,
    last_line: usize,
}

impl TypedList {
    fn list(self) -> List {
        List { name: self.name, ranges: self.ranges }
    }

    /// A range starts no later than its end, and beyond the end of the one before it.
    fn judge(&self, position: Position, start: i64, end: i64) -> Result<(), Fault> {
        if start > end {
            return fault(position, format!("the range starts at {start}, beyond its end, {end}"));
        }
        match self.ranges.last() {
            Some(before) if start <= before.end => {
                let (line, last) = (self.last_line, before.end);
                let what = format!(
                    "the range starts at {start}, and that of line {line} ends at {last}: \
                     it must start beyond"
                );
                fault(position, what)
            }
            _ => Ok(()),
        }
    }
}

impl Typed {
    fn take(&mut self, line: &Line<'_>) -> Result<(), Fault> {
        let first = line.words[0];
        match first.text {
            "join" => fault(first.position, "a text has one join, its first line"),
            "list" => self.list(first.position, line),
            _ => self.range(first, line),
        }
    }

    fn list(&mut self, position: Position, line: &Line<'_>) -> Result<(), Fault> {
        let most = if self.operation.two_way { 2 } else { MOST_LISTS };
        if self.lists.len() == most {
            let operation = self.operation.name;
            return fault(position, format!("{operation} takes no more than {most} lists"));
        }
        let word = line.word(1, "the list's name")?;
        let name = line.words[1..].iter().map(|word| word.text).collect::<Vec<_>>().join(" ");
        if name.contains(char::is_control) {
            return fault(word.position, "the name has a control character");
        }
        if let Some(list) = self.lists.iter().find(|list| list.name == name) {
            let what = format!("the list of line {} has this name already", list.line);
            return fault(word.position, what);
        }
        let (line, ranges) = (position.line, Vec::new());
        self.lists.push(TypedList { name, line, ranges, last_line: line });
        Ok(())
    }

    fn range(&mut self, first: Word<'_>, line: &Line<'_>) -> Result<(), Fault> {
        if !first.text.contains(|character: char| character.is_ascii_digit()) {
            let what = format!("a line begins with list or a range, not with {}", first.quoted());
            return fault(first.position, what);
        }
        let start = first.whole(INSTANTS)?;
        let end = line.word(1, "the range's end")?.whole(INSTANTS)?;
        let value = line.word(2, "the range's value")?.whole(VALUES)?;
        line.ends_after(3)?;
        let Some(list) = self.lists.last_mut() else {
            return fault(first.position, "the range is in no list: a line before it names one");
        };
        if self.ranges == MOST_RANGES {
            let what = format!("lists have at most {MOST_RANGES} ranges in all");
            return fault(first.position, what);
        }
        list.judge(first.position, start, end)?;
        list.ranges.push(Tariff { start, end, value });
        list.last_line = first.position.line;
        self.ranges += 1;
        Ok(())
    }
}
