//! What reading a page or fragment must answer, by looking at each of its beginnings.

use super::derive::{summary, valid, Piece};
use super::words::{mismatched, reduced, Balanced};
use crate::file::File;
use crate::{Row, ROW};

/// Where the reading ends, if it does, and by which of 10, 11 and 12.
fn refusal(file: &File, bytes: &[u8]) -> Option<(u32, u64)> {
    (0..bytes.len()).find_map(|place| {
        let beginning = &bytes[..=place];
        let tag = bytes[place];
        let answer = if tag >= 64 || tag % 32 >= file.names {
            10
        } else if mismatched(beginning) {
            11
        } else if reduced(beginning).len() > 16 {
            12
        } else {
            return None;
        };
        Some((answer, place as u64))
    })
}

/// A page's answer and number.
pub fn page(file: &File, bytes: &[u8]) -> (u32, u64) {
    if let Some(reply) = refusal(file, bytes) {
        return reply;
    }
    if !Balanced::of(bytes).holds(0, bytes.len()) {
        return (13, 0);
    }
    (if valid(file, bytes) { 0 } else { 14 }, 0)
}

/// A fragment's answer, number and row.
pub fn fragment(file: &File, bytes: &[u8]) -> (u32, u64, Row) {
    if let Some((answer, number)) = refusal(file, bytes) {
        return (answer, number, [0; ROW]);
    }
    let (tags, pieces) = summary(file, bytes);
    (0, 0, row(0, &tags, &pieces))
}

/// The row of a nonterminal with a summary of at most 16 tags, place by place as section 10 of the
/// rules lists them.
pub fn row(nonterminal: usize, tags: &[u8], pieces: &[Piece]) -> Row {
    let starts = tags.iter().filter(|&&tag| tag < 32).count();
    let ends = tags.len() - starts;
    let mut row = [0; ROW];
    row[0] = (nonterminal + 256 * ends + 65_536 * starts) as u64;
    for (i, &tag) in tags.iter().enumerate() {
        row[1 + i / 8] += (tag as u64 % 32) * 256u64.pow(i as u32 % 8);
    }
    for (i, &(relation, count)) in pieces.iter().enumerate() {
        row[3 + i] = relation;
        row[20] += count as u64 * 4u64.pow(i as u32);
    }
    row
}
