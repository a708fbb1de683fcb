//! The rows of a card as text: rows that are the same one after the other are written once.

use crate::buffers::Lent;
use crate::format::{BLANK, SPLIT};
use crate::rows;
use independent::card::{Marks, Row};
use std::fmt::{Formatter, Result as Written};

fn number(number: u32) -> String {
    match number {
        BLANK => "blank".to_string(),
        SPLIT => "split".to_string(),
        _ => number.to_string(),
    }
}

fn list(numbers: impl IntoIterator<Item = u32>) -> String {
    let texts: Vec<String> = numbers.into_iter().map(number).collect();
    texts.join(" ")
}

/// The marks, and the estimates that are not blank, each after its sender.
fn tally(marks: &Marks) -> String {
    let mut text = format!("{:#x}", marks.marks);
    for (sender, &estimate) in marks.estimates.iter().enumerate() {
        if estimate != BLANK {
            text += &format!(" {sender}:{}", number(estimate));
        }
    }
    text
}

fn row(row: &Row) -> String {
    let numbers = rows::numbers(row);
    if numbers.iter().all(|&one| one == numbers[0]) {
        return format!("all {}", number(numbers[0]));
    }
    let [log, image] = [&row.log, &row.image].map(|contents| list(rows::log_numbers(contents)));
    let [checks, seconds] = [&row.checks, &row.seconds].map(tally);
    format!("log {log}, image {image}, checks {checks}, seconds {seconds}")
}

/// Nothing where no rows are lent. What was written outside the rows is said, and not shown.
pub fn write_rows(to: &mut Formatter, lent: &Lent<Row>) -> Written {
    if !lent.is_lent() {
        return Ok(());
    }
    let [before, rows, behind] = lent.parts();
    write!(to, "\n    rows, count {}:", rows.len())?;
    let mut first = 1;
    for same in rows.chunk_by(|one, other| one == other) {
        let last = first + same.len() - 1;
        let which = if first == last {
            format!("row {first}")
        } else {
            format!("rows {first} to {last}")
        };
        write!(to, "\n      {which}: {}", row(&same[0]))?;
        first = last + 1;
    }
    if before.iter().chain(behind).any(|guard| *guard != before[0]) {
        write!(to, "\n      and memory outside the rows was written")?;
    }
    Ok(())
}
