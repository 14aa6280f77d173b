//! The six calls, with the boundary's replies, lent rows and lent output.

use crate::answer::*;
use crate::file::{self, File};
use crate::long;
use crate::relation::Schema;
use crate::rounds::{self, Outcome};
use crate::summary::{Fault, Summary};
use crate::{BUDGET, ROW, TABLE};

/// Checks a whole template set: answer, number, images.
pub fn check(file: &[u8], table: &mut [u64], budget: usize) -> (u32, u64, u64) {
    if table.len() < TABLE {
        return (SMALL_TABLE, 0, 0);
    }
    if !(1..=BUDGET).contains(&budget) {
        return (BAD_BUDGET, 0, 0);
    }
    let file = match file::read(file) {
        Ok(file) => file,
        Err(place) => return (BAD_FILE, place, 0),
    };
    match rounds::run(&file, budget as u64) {
        Outcome::NoPage => (NO_PAGE, 0, 0),
        Outcome::Event { answer, round } => {
            table[..TABLE].fill(0);
            (answer, round, 0)
        }
        Outcome::Passed { round, images } => {
            table[..TABLE].fill(0);
            for (place, row) in table.chunks_exact_mut(ROW).zip(&images) {
                place.copy_from_slice(row);
            }
            (PASSED, round, images.len() as u64)
        }
    }
}

/// Reads a page: answer and number.
pub fn page(file: &[u8], bytes: &[u8]) -> (u32, u64) {
    let file = match file::read(file) {
        Ok(file) => file,
        Err(place) => return (BAD_FILE, place),
    };
    let schema = Schema::new(&file);
    match read(&file, &schema, bytes) {
        Err(reply) => reply,
        Ok(summary) => match summary.balanced() {
            None => (UNMATCHED, 0),
            Some(piece) if schema.valid(piece) => (PASSED, 0),
            Some(_) => (NOT_DERIVED, 0),
        },
    }
}

/// Reads a fragment and writes its summary: answer and number.
pub fn fragment(file: &[u8], bytes: &[u8], row: &mut [u64]) -> (u32, u64) {
    let Some(row) = row.get_mut(..ROW) else {
        return (SHORT_ROW, 0);
    };
    row.fill(0);
    let file = match file::read(file) {
        Ok(file) => file,
        Err(place) => return (BAD_FILE, place),
    };
    match read(&file, &Schema::new(&file), bytes) {
        Err(reply) => reply,
        Ok(summary) => {
            row.copy_from_slice(&summary.row(0));
            (PASSED, 0)
        }
    }
}

/// Joins two summaries and writes the whole's: answer and number.
pub fn join(file: &[u8], left: &[u64], right: &[u64], row: &mut [u64]) -> (u32, u64) {
    let Some(row) = row.get_mut(..ROW) else {
        return (SHORT_ROW, 0);
    };
    row.fill(0);
    let file = match file::read(file) {
        Ok(file) => file,
        Err(place) => return (BAD_FILE, place),
    };
    let schema = Schema::new(&file);
    let of = |lent| Summary::of_row(lent, file.names, &schema);
    let (Some(left), Some(right)) = (of(left), of(right)) else {
        return (NO_SUMMARY, 0);
    };
    match left.join(&right, &schema) {
        Err(fault) => (refusal(fault), 0),
        Ok(whole) => {
            row.copy_from_slice(&whole.row(0));
            (PASSED, 0)
        }
    }
}

/// Starts minus ends of a summary: answer, number and depth.
pub fn net_depth(file: &[u8], row: &[u64]) -> (u32, u64, i32) {
    let file = match file::read(file) {
        Ok(file) => file,
        Err(place) => return (BAD_FILE, place, 0),
    };
    match Summary::of_row(row, file.names, &Schema::new(&file)) {
        None => (NO_SUMMARY, 0, 0),
        Some(summary) => (PASSED, 0, summary.starts() as i32 - summary.ends() as i32),
    }
}

/// Writes the ordinary file of a file of long rules: answer, and the bytes written.
pub fn split(file: &[u8], out: &mut [u8]) -> (u32, u64) {
    let long = match file::read_long(file) {
        Ok(long) => long,
        Err(place) => return (BAD_FILE, place),
    };
    let Some(written) = long::split(&long) else {
        return (TOO_MANY, 0);
    };
    match out.get_mut(..written.len()) {
        None => (SHORT_OUTPUT, 0),
        Some(front) => {
            front.copy_from_slice(&written);
            (PASSED, written.len() as u64)
        }
    }
}

/// Reads tag by tag to the first refusal and its place.
fn read(file: &File, schema: &Schema, bytes: &[u8]) -> Result<Summary, (u32, u64)> {
    let mut summary = Summary::empty(schema);
    for (place, &byte) in bytes.iter().enumerate() {
        let name = byte % 32;
        if byte >= 64 || name >= file.names {
            return Err((NO_TAG, place as u64));
        }
        let step = if byte < 32 {
            summary.start(name, schema)
        } else {
            summary.end(name, schema)
        };
        step.map_err(|fault| (refusal(fault), place as u64))?;
    }
    Ok(summary)
}

fn refusal(fault: Fault) -> u32 {
    match fault {
        Fault::Mismatch => MISMATCH,
        Fault::TooDeep => TOO_DEEP,
    }
}
