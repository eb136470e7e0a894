//! Calls and outcomes as lines of text: a name, then its numbers, one space before each.

use core::fmt::{self, Display, Write};

use crate::call::{Call, Columns, Operation, Outcome, Point};

impl Display for Operation {
    fn fmt(&self, out: &mut fmt::Formatter<'_>) -> fmt::Result {
        out.write_str(match self {
            Self::Events => "events",
            Self::TwoWayInner => "two_way_inner",
            Self::TwoWayLeft => "two_way_left",
            Self::TwoWayFull => "two_way_full",
            Self::Inner(_) => "inner",
            Self::Full(_) => "full",
            Self::Union => "union",
            Self::SymmetricDifference => "symmetric_difference",
        })
    }
}

/// What goes in: operation, combiner (0 where there is none), width, room and the lent columns.
pub fn call_lines<T: Point>(call: &Call<T>) -> String {
    let mut lines = String::new();
    let lent = &call.lent;
    let operation = call.operation;
    let combiner = operation.combiner().unwrap_or(0);
    let width = T::WIDTH;
    let room = call.columns.room();
    let head = format!("operation {operation}\ncombiner {combiner}\nwidth {width}\nroom {room}\n");
    lines.push_str(&head);
    push_line(&mut lines, "counts", &lent.counts);
    push_line(&mut lines, "starts", &lent.starts);
    push_line(&mut lines, "ends", &lent.ends);
    push_line(&mut lines, "values", &lent.values);
    lines
}

/// What comes back: code, number, and so many places of each output column.
pub fn outcome_lines<T: Point>(outcome: &Outcome<T>, places: usize) -> String {
    let mut lines = format!("code {}\nnumber {}\n", outcome.answer.code, outcome.answer.number);
    match &outcome.columns {
        Columns::Events { kinds, points, lists, values } => {
            push_line(&mut lines, "kind", front(kinds, places));
            push_line(&mut lines, "point", front(points, places));
            push_line(&mut lines, "list", front(lists, places));
            push_line(&mut lines, "value", front(values, places));
        }
        Columns::Sides { starts, ends, lefts, rights, presences } => {
            push_line(&mut lines, "start", front(starts, places));
            push_line(&mut lines, "end", front(ends, places));
            push_line(&mut lines, "left", front(lefts, places));
            push_line(&mut lines, "right", front(rights, places));
            push_line(&mut lines, "presence", front(presences, places));
        }
        Columns::Priced { starts, ends, values } => {
            push_line(&mut lines, "start", front(starts, places));
            push_line(&mut lines, "end", front(ends, places));
            push_line(&mut lines, "value", front(values, places));
        }
    }
    lines
}

fn front<N>(column: &[N], places: usize) -> &[N] {
    &column[..places.min(column.len())]
}

fn push_line<N: Copy + Into<i128>>(lines: &mut String, name: &str, numbers: &[N]) {
    lines.push_str(name);
    for &number in numbers {
        write!(lines, " {}", number.into()).expect("text grows");
    }
    lines.push('\n');
}
