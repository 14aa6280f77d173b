//! Lengths of tables, rows and outputs, and budgets.

use plain::{IMAGES, LONGEST, ROW, TABLE};
use seeds::Rng;

/// Mostly a little more than needed; once in a while what rows of an entry less would need.
pub fn table(rng: &mut Rng) -> usize {
    match rng.below(40) {
        0 => rng.below(2),
        1 => TABLE - IMAGES,
        2 => rng.within(2, TABLE - 1),
        3 | 4 => rng.within(TABLE - ROW, TABLE + ROW),
        5 => rng.within(TABLE + 1, 3 * TABLE),
        6 => 2 * TABLE,
        7..=12 => TABLE,
        _ => TABLE + rng.within(1, 25),
    }
}

pub fn budget(rng: &mut Rng) -> usize {
    match rng.below(20) {
        0 => 0,
        1 => rng.pick(&[258, 259, 512, 1 << 16, 1 << 32, (1 << 32) + 1, usize::MAX]),
        2..=6 => rng.within(1, 20),
        7..=9 => rng.within(1, 70),
        10 => 256,
        11 => rng.within(70, 257),
        12..=14 => 64,
        _ => 257,
    }
}

/// The length of a row lent for writing, up to twice what is needed.
pub fn row(rng: &mut Rng) -> usize {
    match rng.below(12) {
        0 => rng.below(ROW),
        1 => ROW - 1,
        2..=4 => rng.within(ROW + 1, 2 * ROW),
        _ => ROW,
    }
}

/// The length of an output for a file of so many bytes, mostly enough.
pub fn output(needed: usize, rng: &mut Rng) -> usize {
    match rng.below(16) {
        0 => rng.below(needed + 1),
        1 => needed.saturating_sub(1),
        2..=5 => needed,
        6 | 7 => needed + rng.within(1, 40),
        _ => LONGEST + rng.below(4),
    }
}
