//! Pages and fragments: valid, nearly valid, derived with no or several outermost elements, deep, random.

use super::sample::Sampler;
use seeds::Rng;

/// A page or fragment of any kind for a file with `names` names; samples come from the sampler
/// where the file is sound.
pub fn any(names: u8, sampler: Option<&Sampler>, rng: &mut Rng) -> Vec<u8> {
    match rng.below(13) {
        0 | 1 => sampled(sampler, rng).unwrap_or_else(|| walk(names, rng)),
        2 | 3 => valid(sampler, rng).unwrap_or_else(|| walk(names, rng)),
        4 => derived(sampler, rng).unwrap_or_else(|| walk(names, rng)),
        5 | 6 => nearly(names, sampler, rng),
        7 => deep(names, rng),
        8 => tags(names, rng),
        9 => cut(names, sampler, rng),
        10 => {
            let length = rng.below(12);
            rng.bytes(length)
        }
        _ => walk(names, rng),
    }
}

/// A string of the grammar: of the start, or of any other nonterminal.
fn sampled(sampler: Option<&Sampler>, rng: &mut Rng) -> Option<Vec<u8>> {
    let fuel = rng.pick(&[0, 3, 10, 40]);
    let n = if rng.once_in(4) { rng.byte(0, 3) } else { 0 };
    sampler.and_then(|s| s.any_string(n, fuel, rng))
}

/// A valid page.
fn valid(sampler: Option<&Sampler>, rng: &mut Rng) -> Option<Vec<u8>> {
    let fuel = rng.pick(&[0, 2, 6, 20, 60]);
    sampler.and_then(|s| s.valid_page(fuel, rng))
}

/// What the schema derives, with any number of outermost elements.
fn derived(sampler: Option<&Sampler>, rng: &mut Rng) -> Option<Vec<u8>> {
    let fuel = rng.pick(&[0, 1, 2, 3, 6, 20]);
    sampler.and_then(|s| s.derived(fuel, rng))
}

/// A sample with one tag changed, dropped, doubled or swapped with the next.
fn nearly(names: u8, sampler: Option<&Sampler>, rng: &mut Rng) -> Vec<u8> {
    let page = if rng.once_in(2) {
        valid(sampler, rng)
    } else {
        sampled(sampler, rng)
    };
    let mut page = page.unwrap_or_else(|| walk(names, rng));
    if page.is_empty() {
        return vec![tag(names, rng)];
    }
    let at = rng.below(page.len());
    match rng.below(6) {
        0 => page[at] = tag(names, rng),
        1 => page[at] = rng.bits() as u8,
        2 => drop(page.remove(at)),
        3 => page.insert(at, page[at]),
        4 => page[at] ^= 32,
        _ => {
            let next = (at + 1) % page.len();
            page.swap(at, next);
        }
    }
    page
}

/// Nested around 16 deep, with something short inside.
fn deep(names: u8, rng: &mut Rng) -> Vec<u8> {
    let depth = rng.pick(&[14, 15, 15, 16, 16, 17, 17, 18, 30]);
    let same = rng.once_in(2);
    let first = rng.byte(0, names - 1);
    let opened: Vec<u8> = (0..depth)
        .map(|_| if same { first } else { rng.byte(0, names - 1) })
        .collect();
    let mut page = opened.clone();
    if rng.once_in(2) {
        let a = rng.byte(0, names - 1);
        page.extend([a, 32 + a]);
    }
    match rng.below(4) {
        0 => page,
        1 => opened.iter().map(|a| 32 + a).collect(),
        _ => {
            page.extend(opened.iter().rev().map(|a| 32 + a));
            page
        }
    }
}

fn tag(names: u8, rng: &mut Rng) -> u8 {
    rng.byte(0, names - 1) + rng.pick(&[0, 32])
}

fn tags(names: u8, rng: &mut Rng) -> Vec<u8> {
    (0..rng.below(24)).map(|_| tag(names, rng)).collect()
}

/// A part of a sample.
fn cut(names: u8, sampler: Option<&Sampler>, rng: &mut Rng) -> Vec<u8> {
    let page = valid(sampler, rng).unwrap_or_else(|| walk(names, rng));
    let from = rng.within(0, page.len());
    let to = rng.within(from, page.len());
    page[from..to].to_vec()
}

/// Tags that mostly fit: an end closes the innermost start, or nothing where none is open.
pub fn walk(names: u8, rng: &mut Rng) -> Vec<u8> {
    let length = rng.pick(&[0, 1, 2, 4, 8, 16, 30, 60, 200]);
    let (up, wrong) = (rng.within(2, 6), rng.pick(&[20, 200, 100_000]));
    let few = if rng.once_in(2) { names.min(2) } else { names };
    let mut open = Vec::new();
    (0..length)
        .map(|_| {
            if rng.below(8) < up {
                open.push(rng.byte(0, few - 1));
                return open[open.len() - 1];
            }
            match open.pop() {
                Some(name) if !rng.once_in(wrong) => 32 + name,
                _ => 32 + rng.byte(0, few - 1),
            }
        })
        .collect()
}
