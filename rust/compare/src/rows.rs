//! A card's rows: their numbers one by one, and the unit that a row holds as the bytes of its log and image.

use crate::format::{self, estimate, get, put, CHECK_MARKS, SECOND_MARKS};
use crate::format::{IMAGE_LENGTH, LOG_FIELDS, LOG_LENGTH, MAX_UNITS, ROW_NUMBERS};
use independent::card::{Contents, Marks, Row};

const TALLY_NUMBERS: usize = 1 + MAX_UNITS as usize;

/// The same number everywhere.
pub const fn of_number(number: u32) -> Row {
    let contents = Contents {
        engine: number,
        n: number,
        unit: number,
        entry: number,
        round: number,
        proposal: number,
        first: number,
        second: number,
    };
    let marks = Marks {
        marks: number,
        estimates: [number; MAX_UNITS as usize],
    };
    Row {
        log: contents,
        image: contents,
        checks: marks,
        seconds: marks,
    }
}

fn content(contents: &mut Contents, at: usize) -> &mut u32 {
    match at {
        0 => &mut contents.engine,
        1 => &mut contents.n,
        2 => &mut contents.unit,
        3 => &mut contents.entry,
        4 => &mut contents.round,
        5 => &mut contents.proposal,
        6 => &mut contents.first,
        _ => &mut contents.second,
    }
}

fn marked(marks: &mut Marks, at: usize) -> &mut u32 {
    match at {
        0 => &mut marks.marks,
        _ => &mut marks.estimates[at - 1],
    }
}

/// A number of the row, in the order of the header: log, image, CHECK marks and estimates, SECOND marks and estimates.
pub fn number_mut(row: &mut Row, at: usize) -> &mut u32 {
    const IMAGE: usize = LOG_FIELDS;
    const CHECKS: usize = 2 * LOG_FIELDS;
    const SECONDS: usize = CHECKS + TALLY_NUMBERS;
    match at {
        ..IMAGE => content(&mut row.log, at),
        IMAGE..CHECKS => content(&mut row.image, at - IMAGE),
        CHECKS..SECONDS => marked(&mut row.checks, at - CHECKS),
        _ => marked(&mut row.seconds, at - SECONDS),
    }
}

pub fn numbers(row: &Row) -> [u32; ROW_NUMBERS] {
    let mut row = *row;
    std::array::from_fn(|at| *number_mut(&mut row, at))
}

/// A number among those of all rows.
pub fn number(rows: &[Row], at: usize) -> u32 {
    numbers(&rows[at / ROW_NUMBERS])[at % ROW_NUMBERS]
}

/// Another number among those of all rows, where the card has so many.
pub fn put_number(rows: &mut [Row], at: usize, value: u32) {
    if let Some(row) = rows.get_mut(at / ROW_NUMBERS) {
        *number_mut(row, at % ROW_NUMBERS) = value;
    }
}

pub fn contents(numbers: [u32; LOG_FIELDS]) -> Contents {
    let mut contents = of_number(0).log;
    for (at, number) in numbers.into_iter().enumerate() {
        *content(&mut contents, at) = number;
    }
    contents
}

fn contents_of(bytes: &[u8]) -> Contents {
    contents(std::array::from_fn(|at| get(bytes, format::LOG[at])))
}

fn marks_of(image: &[u8], marks: format::Field) -> Marks {
    Marks {
        marks: get(image, marks),
        estimates: std::array::from_fn(|unit| get(image, estimate(marks, unit as u32))),
    }
}

/// The row that holds what these bytes say.
pub fn of_bytes(log: &[u8; LOG_LENGTH], image: &[u8; IMAGE_LENGTH]) -> Row {
    Row {
        log: contents_of(log),
        image: contents_of(image),
        checks: marks_of(image, CHECK_MARKS),
        seconds: marks_of(image, SECOND_MARKS),
    }
}

pub fn log_numbers(contents: &Contents) -> [u32; LOG_FIELDS] {
    let mut contents = *contents;
    std::array::from_fn(|at| *content(&mut contents, at))
}

/// The row's log and image as bytes. Numbers too large for their bytes are cut.
pub fn bytes_of(row: &Row) -> ([u8; LOG_LENGTH], [u8; IMAGE_LENGTH]) {
    let mut image = format::image_of(log_numbers(&row.image));
    for (field, marks) in [(CHECK_MARKS, &row.checks), (SECOND_MARKS, &row.seconds)] {
        put(&mut image, field, marks.marks);
        for (unit, &number) in (0..).zip(&marks.estimates) {
            put(&mut image, estimate(field, unit), number);
        }
    }
    (format::log_of(log_numbers(&row.log)), image)
}
