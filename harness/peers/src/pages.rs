//! Pages to be judged: valid ones, rows of elements that a schema derives, changed ones, and random ones.
use crate::schema::Schema;
use seeds::Rng;

/// The most tags of a sampled page, beyond those that its schema forces.
const LENGTH: usize = 40;

/// A cost that no derivation has.
const NEVER: usize = 1 << 20;

/// Derives pages: knows the fewest tags that each state needs within each depth.
pub struct Sampler<'a> {
    schema: &'a Schema,
    deepest: usize,
    fewest: Vec<Vec<usize>>,
}

impl<'a> Sampler<'a> {
    /// Of pages that nest at most so deep.
    pub fn new(schema: &'a Schema, deepest: usize) -> Sampler<'a> {
        let states = schema.states as usize;
        let mut fewest: Vec<Vec<usize>> = Vec::new();
        for depth in 0..=deepest {
            let mut row: Vec<usize> = (0..states)
                .map(|s| if schema.ends(s as u8) { 0 } else { NEVER })
                .collect();
            for _ in 0..if depth == 0 { 0 } else { states } {
                for &[x, _, y, z] in &schema.rules {
                    let tags = 2 + fewest[depth - 1][y as usize] + row[z as usize];
                    row[x as usize] = row[x as usize].min(tags);
                }
            }
            fewest.push(row);
        }
        Sampler {
            schema,
            deepest,
            fewest,
        }
    }

    /// The rules by which state 0 derives one element alone, within a depth of at least 1.
    fn roots(&self, depth: usize) -> Vec<[u8; 4]> {
        let alone =
            |r: &&[u8; 4]| self.schema.ends(r[3]) && self.fewest[depth - 1][r[2] as usize] < NEVER;
        self.schema.rules_of(0).filter(alone).copied().collect()
    }

    /// A valid page, if any nests no deeper than asked.
    pub fn page(&self, random: &mut Rng) -> Option<Vec<u8>> {
        let depth = 1 + random.below(self.deepest);
        let depth = (depth..=self.deepest).find(|&d| !self.roots(d).is_empty())?;
        let [_, a, y, _] = random.pick(&self.roots(depth));
        let tags = self.fewest[depth - 1][y as usize] + random.below(LENGTH);
        let mut page = vec![a];
        self.derive(random, y, depth - 1, tags, &mut page);
        page.push(32 + a);
        Some(page)
    }

    /// What state 0 derives, with any number of outermost elements, if anything nests no deeper than asked.
    pub fn row(&self, random: &mut Rng) -> Option<Vec<u8>> {
        let depth = 1 + random.below(self.deepest);
        let depth = (depth..=self.deepest).find(|&d| self.fewest[d][0] < NEVER)?;
        let tags = self.fewest[depth][0] + random.below(LENGTH);
        let mut page = Vec::new();
        self.derive(random, 0, depth, tags, &mut page);
        Some(page)
    }

    /// What the state derives with about so many tags; never deeper, and never more tags than asked for.
    fn derive(&self, random: &mut Rng, state: u8, depth: usize, tags: usize, page: &mut Vec<u8>) {
        let cost = |r: &[u8; 4]| {
            2 + self.fewest[depth - 1][r[2] as usize] + self.fewest[depth][r[3] as usize]
        };
        let rules: Vec<_> = match depth {
            0 => Vec::new(),
            _ => self
                .schema
                .rules_of(state)
                .filter(|r| cost(r) <= tags)
                .collect(),
        };
        if rules.is_empty() || (self.schema.ends(state) && random.once_in(8)) {
            return;
        }
        let rule = rules[random.below(rules.len())];
        let spare = random.below(tags - cost(rule) + 1);
        let inner = self.fewest[depth - 1][rule[2] as usize] + spare;
        page.push(rule[1]);
        self.derive(random, rule[2], depth - 1, inner, page);
        page.push(32 + rule[1]);
        self.derive(random, rule[3], depth, tags - 2 - inner, page);
    }
}

/// A balanced page over so many names, of so many tags, that nests at most so deep.
pub fn balanced(random: &mut Rng, names: u8, tags: usize, deepest: usize) -> Vec<u8> {
    let mut page = Vec::new();
    let mut open = Vec::new();
    while page.len() + open.len() < tags {
        if open.is_empty() || (open.len() < deepest && random.once_in(2)) {
            open.push(random.below(names as usize) as u8);
            page.push(*open.last().unwrap());
        } else {
            page.push(32 + open.pop().unwrap());
        }
    }
    page.extend(open.iter().rev().map(|a| 32 + a));
    page
}

/// Tags in any order.
pub fn unruly(random: &mut Rng, names: u8, tags: usize) -> Vec<u8> {
    (0..tags)
        .map(|_| (random.below(names as usize) + 32 * random.below(2)) as u8)
        .collect()
}

/// Where the element that begins at a place ends, in a balanced page.
fn end_of(page: &[u8], start: usize) -> usize {
    let mut depth = 0;
    for (i, &byte) in page.iter().enumerate().skip(start) {
        depth += if byte < 32 { 1 } else { -1 };
        if depth == 0 {
            return i;
        }
    }
    unreachable!("the page is balanced")
}

/// A balanced page with one element renamed, taken out, opened up, put in, doubled, or moved.
pub fn changed(random: &mut Rng, names: u8, page: &[u8]) -> Vec<u8> {
    let a = random.below(names as usize) as u8;
    let mut page = page.to_vec();
    let starts: Vec<usize> = (0..page.len()).filter(|&i| page[i] < 32).collect();
    if starts.is_empty() || random.once_in(5) {
        let at = random.below(page.len() + 1);
        page.splice(at..at, [a, 32 + a]);
        return page;
    }
    let i = starts[random.below(starts.len())];
    let e = end_of(&page, i);
    let whole = page[i..=e].to_vec();
    match random.below(5) {
        0 => (page[i], page[e]) = (a, 32 + a),
        1 => drop(page.drain(i..=e)),
        2 => drop((page.remove(e), page.remove(i))),
        3 => drop(page.splice(i..i, whole)),
        _ => {
            page.drain(i..=e);
            let at = random.below(page.len() + 1);
            page.splice(at..at, whole);
        }
    }
    page
}

/// A page with one tag changed, taken out or put in, so that it is most often not balanced.
pub fn torn(random: &mut Rng, names: u8, page: &[u8]) -> Vec<u8> {
    let tag = unruly(random, names, 1)[0];
    let mut page = page.to_vec();
    let at = random.below(page.len() + 1);
    match random.below(3) {
        0 if at < page.len() => page[at] = tag,
        1 if at < page.len() => drop(page.remove(at)),
        _ => page.insert(at, tag),
    }
    page
}

/// The page inside up to so many elements more.
pub fn nested(random: &mut Rng, names: u8, page: &[u8], more: usize) -> Vec<u8> {
    let mut page = page.to_vec();
    for _ in 0..1 + random.below(more) {
        let a = random.below(names as usize) as u8;
        page.insert(0, a);
        page.push(32 + a);
    }
    page
}
