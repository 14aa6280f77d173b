//! Rows lent as summaries: true ones, well-formed ones that no fragment has, broken ones.

use super::pages;
use plain::{DEEPEST, ROW};
use seeds::Rng;

/// The numbers of a sound file, and its bytes.
#[derive(Clone, Copy)]
pub struct Under<'a> {
    pub file: &'a [u8],
    pub names: u8,
    pub states: u8,
}

/// A row of any kind.
pub fn any(under: Under, rng: &mut Rng) -> Vec<u64> {
    match rng.below(8) {
        0..=2 => real(under, rng),
        3..=6 => invented(under, rng),
        _ => broken(under, rng),
    }
}

/// The summary of some fragment; of the empty one where it has none.
pub fn real(under: Under, rng: &mut Rng) -> Vec<u64> {
    let mut row = vec![0; ROW];
    let bytes = pages::walk(under.names, rng);
    if plain::fragment(under.file, &bytes, &mut row).0 != 0 {
        plain::fragment(under.file, &[], &mut row);
    }
    row
}

/// Where a row has its relations, and the entry of their counts.
const RELATIONS: usize = 3;
const COUNTS: usize = ROW - 1;

/// A relation and its count.
type Piece = (u64, u64);

/// A well-formed row with names, relations and counts at random.
pub fn invented(under: Under, rng: &mut Rng) -> Vec<u64> {
    let tags = rng.pick(&[0, 1, 2, 5, 8, 9, 12, 15, 16]);
    let ends = match rng.below(4) {
        0 => 0,
        1 => tags,
        _ => rng.within(0, tags),
    };
    let few = if rng.once_in(2) {
        under.names.min(2)
    } else {
        under.names
    };
    let names: Vec<u8> = (0..tags).map(|_| rng.byte(0, few - 1)).collect();
    row(ends, &names, &pieces(under, tags, rng))
}

/// A right summary whose ends answer the starts of `left`, all or nearly all.
pub fn answering(under: Under, left: &[u64], rng: &mut Rng) -> Vec<u64> {
    let (ends, mut names) = names_of(left);
    let mut names: Vec<u8> = names.drain(ends.min(names.len())..).rev().collect();
    match rng.below(6) {
        0 => names.truncate(rng.within(0, names.len())),
        1 if !names.is_empty() => {
            let at = rng.below(names.len());
            names[at] = rng.byte(0, under.names - 1);
        }
        2 => names.extend((0..rng.below(5)).map(|_| rng.byte(0, under.names - 1))),
        _ => {}
    }
    names.truncate(DEEPEST);
    let ends = names.len();
    let starts = rng.pick(&[0, 0, 1, 3, DEEPEST]).min(DEEPEST - ends);
    names.extend((0..starts).map(|_| rng.byte(0, under.names - 1)));
    row(ends, &names, &pieces(under, names.len(), rng))
}

/// The ends and all names of a row, as far as it has them.
fn names_of(row: &[u64]) -> (usize, Vec<u8>) {
    let at = |i: usize| row.get(i).copied().unwrap_or(0);
    let deepest = DEEPEST as u64;
    let ends = (at(0) >> 8 & 255).min(deepest);
    let tags = ends.saturating_add(at(0) >> 16).min(deepest) as usize;
    let ends = ends as usize;
    let names = [at(1).to_le_bytes(), at(2).to_le_bytes()].concat();
    (ends, names[..tags].to_vec())
}

/// One piece more than tags. Counts and relations need not fit together.
fn pieces(under: Under, tags: usize, rng: &mut Rng) -> Vec<Piece> {
    (0..=tags)
        .map(|_| (relation(under.states, rng), rng.below(3) as u64))
        .collect()
}

/// A relation below Q: any, few pairs, many pairs, the empty string's, none.
fn relation(states: u8, rng: &mut Rng) -> u64 {
    let mask = within(states);
    match rng.below(6) {
        0 => 0,
        1 => mask,
        2 => mask & 0x8040_2010_0804_0201,
        3 => mask & rng.bits() & rng.bits() & rng.bits(),
        4 => mask & (rng.bits() | rng.bits()),
        _ => mask & rng.bits(),
    }
}

fn within(states: u8) -> u64 {
    let row = (1u64 << states) - 1;
    (0..states).fold(0, |sum, x| sum | row << (8 * x))
}

fn row(ends: usize, names: &[u8], pieces: &[Piece]) -> Vec<u64> {
    let mut row = vec![0; ROW];
    row[0] = 256 * ends as u64 + 65_536 * (names.len() - ends) as u64;
    for (i, &name) in names.iter().enumerate() {
        row[1 + i / 8] |= (name as u64) << (8 * (i % 8));
    }
    for (i, &(relation, count)) in pieces.iter().enumerate() {
        row[RELATIONS + i] = relation;
        row[COUNTS] |= count << (2 * i);
    }
    row
}

/// The ways in which a row can be no summary.
pub const WAYS: usize = 17;

/// A row that is no summary, in any way.
pub fn broken(under: Under, rng: &mut Rng) -> Vec<u64> {
    let way = rng.below(WAYS);
    broken_by(way, under, rng)
}

/// A row that is no summary in one way (some ways need free places; then it stays well-formed).
pub fn broken_by(way: usize, under: Under, rng: &mut Rng) -> Vec<u64> {
    let mut row = if rng.once_in(2) {
        real(under, rng)
    } else {
        invented(under, rng)
    };
    let tags = names_of(&row).1.len();
    match way {
        0 => name_too_big(&mut row, tags, under.names, rng),
        1 => row[0] += rng.within(DEEPEST + 1 - tags, 20) as u64 * 65_536,
        2 => row[0] += rng.within(DEEPEST + 1 - tags, 20) as u64 * 256,
        3 => row[RELATIONS + rng.within(0, tags)] |= outside(under.states, rng),
        4 if tags < DEEPEST => {
            let at = rng.within(tags, DEEPEST - 1);
            row[1 + at / 8] |= 1 << (8 * (at % 8) + rng.below(8));
        }
        5 if tags < DEEPEST => row[RELATIONS + rng.within(tags + 1, DEEPEST)] |= 1 << rng.below(64),
        6 => row[0] += rng.within(1, 255) as u64,
        7 => drop(row.pop()),
        8 => row.push(0),
        9 => {
            row[0] = row[0] & 0xffff
                | rng.pick(&[0xffff, u32::MAX as u64, (1 << 48) - 1, (1 << 48) - 16]) << 16
        }
        // Starts that are well-formed in their lower bits alone.
        10 => row[0] |= 1 << rng.within(21, 63),
        11 => row = rng.entries(ROW),
        12..=15 => row[COUNTS] |= miscount(way - 12, tags, rng),
        _ => row.resize(rng.below(2 * ROW), 0),
    }
    row
}

/// A count of 3, a count at an unused place where there is one, and bits behind the last place: one of them, or all.
fn miscount(way: usize, tags: usize, rng: &mut Rng) -> u64 {
    const BEHIND: usize = 2 * (DEEPEST + 1);
    match way {
        0 => 3 << (2 * rng.within(0, tags)),
        1 if tags < DEEPEST => (rng.within(1, 3) as u64) << (2 * rng.within(tags + 1, DEEPEST)),
        2 => 1 << rng.within(BEHIND, 63),
        _ => u64::MAX << BEHIND,
    }
}

fn name_too_big(row: &mut [u64], tags: usize, names: u8, rng: &mut Rng) {
    if tags > 0 {
        let (at, name) = (
            rng.below(tags),
            rng.pick(&[names, names + 1, 32, 64, 255]).max(names),
        );
        row[1 + at / 8] &= !(255 << (8 * (at % 8)));
        row[1 + at / 8] |= (name as u64) << (8 * (at % 8));
    }
}

/// One bit outside Q; none where Q is 8.
fn outside(states: u8, rng: &mut Rng) -> u64 {
    if states == 8 {
        return 0;
    }
    let far = rng.byte(states, 7);
    let any = rng.byte(0, 7);
    let (x, z) = if rng.once_in(2) {
        (far, any)
    } else {
        (any, far)
    };
    1 << (8 * x + z)
}
