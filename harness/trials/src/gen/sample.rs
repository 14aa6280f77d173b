//! Strings sampled from a file's grammar, and from its schema: valid pages, and what has not one outermost element.

use plain::file::File;
use seeds::Rng;

/// No sample is longer.
const LONGEST: usize = 600;

/// Samples of one sound file.
pub struct Sampler<'a> {
    file: &'a File<'a>,
    /// For each nonterminal a rule of the lowest tree, none where it derives nothing.
    lowest: Vec<Option<[u8; 4]>>,
    /// The tags of that tree's string.
    least: Vec<usize>,
    /// For each state the least height of what it derives, none where it derives nothing.
    state_height: Vec<Option<usize>>,
}

fn nonterminals(rule: &[u8; 4]) -> impl Iterator<Item = usize> + '_ {
    let used = &rule[2..2 + rule[1] as usize];
    used.iter().filter(|&&s| s >= 64).map(|&s| s as usize - 64)
}

impl<'a> Sampler<'a> {
    pub fn new(file: &'a File<'a>) -> Self {
        let count = file.nonterminals as usize;
        let mut sampler = Sampler {
            file,
            lowest: vec![None; count],
            least: vec![0; count],
            state_height: vec![None; file.states as usize],
        };
        sampler.lowest_trees();
        sampler.state_heights();
        sampler
    }

    /// Height by height, so that the rule found first is one of the lowest tree.
    fn lowest_trees(&mut self) {
        loop {
            let known = self.lowest.clone();
            for rule in self.file.rules {
                let n = rule[0] as usize;
                if self.lowest[n].is_none() && nonterminals(rule).all(|m| known[m].is_some()) {
                    self.lowest[n] = Some(*rule);
                    let tags = rule[2..2 + rule[1] as usize]
                        .iter()
                        .filter(|&&s| s < 64)
                        .count();
                    let parts = nonterminals(rule).map(|m| self.least[m]);
                    self.least[n] = parts.fold(tags, usize::saturating_add);
                }
            }
            if self.lowest == known {
                return;
            }
        }
    }

    fn state_heights(&mut self) {
        for height in 0..=self.file.states as usize {
            let known = self.state_height.clone();
            let so = |state: u8| known[state as usize].is_some();
            for x in 0..self.file.states {
                let derives = self.file.ending.contains(&x)
                    || self
                        .file
                        .schema
                        .iter()
                        .any(|r| r[0] == x && so(r[2]) && so(r[3]));
                if derives && self.state_height[x as usize].is_none() {
                    self.state_height[x as usize] = Some(height);
                }
            }
        }
    }

    /// Whether a nonterminal derives some string.
    pub fn derives(&self, n: u8) -> bool {
        self.lowest[n as usize].is_some()
    }

    /// A string of a nonterminal that need not be below N.
    pub fn any_string(&self, n: u8, fuel: usize, rng: &mut Rng) -> Option<Vec<u8>> {
        self.string(n % self.file.nonterminals, fuel, rng)
    }

    /// A string of a nonterminal; about `fuel` rules are chosen freely, then the lowest trees. None
    /// where it derives nothing or grows too long.
    pub fn string(&self, n: u8, mut fuel: usize, rng: &mut Rng) -> Option<Vec<u8>> {
        self.lowest[n as usize]?;
        let eager = rng.once_in(2);
        let mut out = Vec::new();
        let mut todo = vec![64 + n];
        while let Some(symbol) = todo.pop() {
            if out.len() + todo.len() > LONGEST {
                return None;
            }
            if symbol < 64 {
                out.push(symbol);
                continue;
            }
            let n = symbol as usize - 64;
            let rule = if fuel > 0 {
                self.free(n, eager, rng)
            } else {
                self.lowest[n]?
            };
            if fuel == 0 && self.least[n] > LONGEST {
                return None;
            }
            fuel = fuel.saturating_sub(1);
            todo.extend(rule[2..2 + rule[1] as usize].iter().rev());
        }
        Some(out)
    }

    /// Any rule of a nonterminal whose own nonterminals all derive something; where `eager`, one that
    /// has nonterminals if there is one.
    fn free(&self, n: usize, eager: bool, rng: &mut Rng) -> [u8; 4] {
        let fits = |rule: &&[u8; 4]| {
            rule[0] as usize == n && nonterminals(rule).all(|m| self.lowest[m].is_some())
        };
        let mut rules: Vec<[u8; 4]> = self.file.rules.iter().filter(fits).copied().collect();
        if eager && rules.iter().any(|rule| nonterminals(rule).count() > 0) {
            rules.retain(|rule| nonterminals(rule).count() > 0);
        }
        rng.pick(&rules)
    }

    /// A valid page: one element that state 0 derives by itself. None where there is none.
    pub fn valid_page(&self, fuel: usize, rng: &mut Rng) -> Option<Vec<u8>> {
        let alone = |r: &&[u8; 4]| {
            r[0] == 0
                && self.state_height[r[2] as usize].is_some()
                && self.file.ending.contains(&r[3])
        };
        let rules: Vec<&[u8; 4]> = self.file.schema.iter().filter(alone).collect();
        if rules.is_empty() {
            return None;
        }
        let &[_, a, y, _] = rng.pick(&rules);
        let mut page = vec![a];
        self.content(y, &mut { fuel }, &mut page, rng);
        page.push(32 + a);
        Some(page)
    }

    /// What state 0 derives, short elements side by side, about `fuel` of them at most; none where it derives nothing.
    pub fn derived(&self, mut fuel: usize, rng: &mut Rng) -> Option<Vec<u8>> {
        self.state_height[0]?;
        let (mut state, mut page) = (0, Vec::new());
        while let Some([_, a, y, z]) = self.element(state, fuel, rng) {
            fuel = fuel.saturating_sub(1);
            page.push(a);
            self.content(y, &mut rng.below(2), &mut page, rng);
            page.push(32 + a);
            state = z;
        }
        Some(page)
    }

    fn content(&self, mut state: u8, fuel: &mut usize, page: &mut Vec<u8>, rng: &mut Rng) {
        while let Some([_, a, y, z]) = self.element(state, *fuel, rng) {
            *fuel = fuel.saturating_sub(1);
            page.push(a);
            self.content(y, fuel, page, rng);
            page.push(32 + a);
            state = z;
        }
    }

    /// The rule for the next element, none where the content ends. Without fuel heights fall.
    fn element(&self, state: u8, fuel: usize, rng: &mut Rng) -> Option<[u8; 4]> {
        let may_end = self.file.ending.contains(&state);
        if may_end && (fuel == 0 || rng.once_in(4)) {
            return None;
        }
        let height = |s: u8| self.state_height[s as usize];
        let fits = |r: &[u8; 4]| match (height(r[2]), height(r[3])) {
            (Some(y), Some(z)) => fuel > 0 || Some(y.max(z)) < height(state),
            _ => false,
        };
        let rules = self.file.schema.iter().filter(|r| r[0] == state && fits(r));
        let rules: Vec<[u8; 4]> = rules.copied().collect();
        if rules.is_empty() {
            assert!(may_end, "a state that derives something ends or goes on");
            return None;
        }
        Some(rng.pick(&rules))
    }
}
