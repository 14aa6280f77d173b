//! Damaged files, ordinary and of long rules: each fault of each field by aim, and blows at random. W is the width of a template rule.

use super::draft::{lay, WideDraft};
use seeds::Rng;

/// A damaged file; once in a while with two faults, so that their order matters.
pub fn any<const W: usize>(draft: &WideDraft<W>, rng: &mut Rng) -> Vec<u8> {
    if rng.once_in(8) {
        return too_many(draft, rng);
    }
    let mut bytes = draft.bytes();
    for _ in 0..rng.pick(&[1, 1, 1, 2, 3]) {
        strike::<W>(&mut bytes, rng);
    }
    bytes
}

/// One blow at a file that may be damaged already.
fn strike<const W: usize>(bytes: &mut Vec<u8>, rng: &mut Rng) {
    if bytes.len() < 16 {
        return;
    }
    match rng.below(10) {
        0 => head(bytes, rng),
        1 => numbers(bytes, rng),
        2 | 3 => contents::<W>(bytes, rng),
        4 => length(bytes, rng),
        5 | 6 => field::<W>(bytes, rng),
        7 => ascent::<W>(bytes, rng),
        8 => {
            let at = rng.below(bytes.len());
            bytes[at] = rng.bits() as u8;
        }
        _ => {
            let at = rng.below(bytes.len());
            bytes[at] ^= 1 << rng.below(8);
        }
    }
}

/// A, N, Q out of range, or the fourth byte not 0.
fn head(bytes: &mut [u8], rng: &mut Rng) {
    match rng.below(4) {
        0 => bytes[0] = rng.pick(&[0, 33, 34, 64, 255]),
        1 => bytes[1] = rng.pick(&[0, 65, 66, 128, 255]),
        2 => bytes[2] = rng.pick(&[0, 9, 10, 16, 255]),
        _ => bytes[3] = rng.pick(&[1, 2, 128, 255]),
    }
}

/// A, N or Q in range, but perhaps too small for the bodies.
fn numbers(bytes: &mut [u8], rng: &mut Rng) {
    let field = rng.below(3);
    let most = [32, 64, 8][field];
    bytes[field] = rng.byte(1, bytes[field].clamp(1, most));
}

/// One of the six numbers of the contents.
fn contents<const W: usize>(bytes: &mut [u8], rng: &mut Rng) {
    let at = 4 + 2 * rng.below(6);
    let old = u16::from_le_bytes([bytes[at], bytes[at + 1]]);
    let new = match rng.below(7) {
        0 => old.wrapping_add(1),
        1 => old.wrapping_sub(1),
        2 => old.wrapping_add(W as u16),
        3 => old.wrapping_sub(W as u16),
        4 => old.swap_bytes(),
        5 => rng.pick(&[0, 9, 128, 129, 256, 257, u16::MAX]),
        _ => rng.bits() as u16,
    };
    bytes[at..at + 2].copy_from_slice(&new.to_le_bytes());
}

/// Too short or too long.
fn length(bytes: &mut Vec<u8>, rng: &mut Rng) {
    match rng.below(5) {
        0 => bytes.truncate(bytes.len() - 1),
        1 => bytes.truncate(rng.below(bytes.len())),
        2 => bytes.truncate(rng.below(18)),
        3 => bytes.push(rng.bits() as u8),
        _ => {
            let more = rng.within(1, 9);
            bytes.extend(rng.bytes(more));
        }
    }
}

/// The counts of the contents, as far as the bodies are there.
fn counts<const W: usize>(bytes: &[u8]) -> (usize, usize) {
    let count = |at: usize| u16::from_le_bytes([bytes[at], bytes[at + 1]]) as usize;
    let rules = count(6).min((bytes.len() - 16) / W);
    let schema = count(10).min((bytes.len() - 16 - W * rules) / 4);
    (rules, schema)
}

/// One to three fields of one entry, set to their limits or past them.
fn field<const W: usize>(bytes: &mut [u8], rng: &mut Rng) {
    let (rules, schema) = counts::<W>(bytes);
    let second = 16 + W * rules;
    let third = second + 4 * schema;
    let (body, entry) = (rng.below(3), rng.below(1024));
    for _ in 0..rng.pick(&[1, 1, 2, 3]) {
        match body {
            0 if rules > 0 => rule_field::<W>(bytes, 16 + W * (entry % rules), rng),
            1 if schema > 0 => schema_field(bytes, second + 4 * (entry % schema), rng),
            2 if third < bytes.len() => {
                let at = third + entry % (bytes.len() - third);
                bytes[at] = past(bytes[2], rng);
            }
            _ => {}
        }
    }
}

fn past(limit: u8, rng: &mut Rng) -> u8 {
    rng.pick(&[limit, limit.wrapping_add(1), 255])
}

fn rule_field<const W: usize>(bytes: &mut [u8], at: usize, rng: &mut Rng) {
    let (a, n, most) = (bytes[0], bytes[1], W as u8 - 2);
    let tags = [a, 31, a.wrapping_add(32), 63];
    let others = [n.wrapping_add(64), 127, 128, 254, 255, 0];
    let field = rng.below(W);
    bytes[at + field] = match field {
        0 => past(n, rng),
        1 => rng.pick(&[0, 1, most, most + 1, most + 2, 255]),
        _ if rng.once_in(2) => rng.pick(&tags),
        _ => rng.pick(&others),
    };
}

fn schema_field(bytes: &mut [u8], at: usize, rng: &mut Rng) {
    let (a, q) = (bytes[0], bytes[2]);
    let field = rng.below(4);
    bytes[at + field] = past([q, a, q, q][field], rng);
}

/// Two neighbours swapped, or one written over the next.
fn ascent<const W: usize>(bytes: &mut [u8], rng: &mut Rng) {
    let (rules, schema) = counts::<W>(bytes);
    let second = 16 + W * rules;
    let ending = second + 4 * schema;
    let (from, width, count) = match rng.below(3) {
        0 => (16, W, rules),
        1 => (second, 4, schema),
        _ => (ending, 1, bytes.len().saturating_sub(ending)),
    };
    if count < 2 {
        return;
    }
    let at = from + width * rng.below(count - 1);
    if rng.once_in(2) {
        bytes.copy_within(at..at + width, at + width);
    } else {
        bytes[at..at + 2 * width].rotate_left(width);
    }
}

/// A count past its limit in a file that is otherwise in order.
fn too_many<const W: usize>(draft: &WideDraft<W>, rng: &mut Rng) -> Vec<u8> {
    let mut draft = draft.clone();
    match rng.below(3) {
        0 => grow(&mut draft.rules, rng.within(257, 259)),
        1 => grow(&mut draft.schema, rng.within(129, 131)),
        _ => draft.ending = (0..=draft.states).collect(),
    }
    lay(&draft)
}

/// More entries, whatever they hold, up to a count.
fn grow<const W: usize>(entries: &mut Vec<[u8; W]>, count: usize) {
    for length in [1, 2] {
        entries.extend((0..=255).map(|i| {
            let mut entry = [255; W];
            entry[..4].copy_from_slice(&[0, length, 0, i]);
            entry
        }));
    }
    entries.truncate(count);
}
