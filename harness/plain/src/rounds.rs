//! The rounds of a check. A pair of images is joined once only: in the round after the later of the
//! two was found.

use crate::answer;
use crate::file::File;
use crate::grammar::{useful_rules, Right};
use crate::relation::Schema;
use crate::summary::{Fault, Summary};
use crate::{Row, IMAGES};
use std::collections::{BTreeMap, BTreeSet};

/// How the rounds end.
pub enum Outcome {
    NoPage,
    Passed { round: u64, images: BTreeSet<Row> },
    Event { answer: u32, round: u64 },
}

/// Runs rounds to the first event, the pass or the budget's end.
pub fn run(file: &File, budget: u64) -> Outcome {
    let Some(lefts) = useful_rules(file) else {
        return Outcome::NoPage;
    };
    let schema = Schema::new(file);
    let mut given = Given::tags(file, &schema);
    let mut found = Found::default();
    for round in 1..=budget {
        walk(&lefts, &given, &mut found, &schema, round == 1);
        if let Some(answer) = found.event {
            return Outcome::Event { answer, round };
        }
        if found.fresh.is_empty() {
            let images = found.images;
            return Outcome::Passed { round, images };
        }
        turn(&mut given, &mut found.fresh);
    }
    Outcome::Event {
        answer: answer::BUDGET_USED,
        round: budget,
    }
}

/// What one symbol has given in the rounds before: `old` of them before the last one.
#[derive(Clone, Default)]
struct Given {
    summaries: Vec<Summary>,
    old: usize,
}

impl Given {
    /// By symbol. A tag gives its own summary, which is new in the first round.
    fn tags(file: &File, schema: &Schema) -> Vec<Given> {
        let mut given = vec![Given::default(); 128];
        for name in 0..file.names {
            let mut start = Summary::empty(schema);
            let mut end = start;
            let read = start.start(name, schema).and(end.end(name, schema));
            read.expect("one tag is never too deep");
            given[name as usize].summaries.push(start);
            given[32 + name as usize].summaries.push(end);
        }
        given
    }

    fn old(&self) -> &[Summary] {
        &self.summaries[..self.old]
    }

    fn fresh(&self) -> &[Summary] {
        &self.summaries[self.old..]
    }
}

/// What was fresh becomes old, and what was found becomes fresh.
fn turn(given: &mut [Given], fresh: &mut Vec<(u8, Summary)>) {
    for given in given.iter_mut() {
        given.old = given.summaries.len();
    }
    for (left, summary) in fresh.drain(..) {
        given[64 + left as usize].summaries.push(summary);
    }
}

/// One round over all right sides. Only a mismatch ends it, since any other event may yet be outdone
/// by a lower one.
fn walk(
    lefts: &BTreeMap<Right, Vec<u8>>,
    given: &[Given],
    found: &mut Found,
    schema: &Schema,
    first: bool,
) {
    'walk: for (&[one, two], lefts) in lefts {
        if one == 255 {
            if first {
                found.take(lefts, Summary::empty(schema), schema);
            }
            continue;
        }
        let one = &given[one as usize];
        if two == 255 {
            for summary in one.fresh() {
                found.take(lefts, *summary, schema);
            }
            continue;
        }
        for (left, right) in pairs(one, &given[two as usize]) {
            match left.join(right, schema) {
                Ok(whole) => found.take(lefts, whole, schema),
                Err(Fault::TooDeep) => found.take_deep(lefts),
                Err(Fault::Mismatch) => {
                    found.meet(answer::BROKEN_MISMATCH);
                    break 'walk;
                }
            }
        }
    }
}

/// The pairs of which at least one is new.
fn pairs<'a>(one: &'a Given, two: &'a Given) -> impl Iterator<Item = (&'a Summary, &'a Summary)> {
    let later = one.fresh().iter().map(|left| (left, &two.summaries[..]));
    let earlier = one.old().iter().map(|left| (left, two.fresh()));
    let rows = later.chain(earlier);
    rows.flat_map(|(left, rights)| rights.iter().map(move |right| (left, right)))
}

/// The images of all rounds, those of this round apart, and its lowest event.
#[derive(Default)]
struct Found {
    images: BTreeSet<Row>,
    fresh: Vec<(u8, Summary)>,
    event: Option<u32>,
}

impl Found {
    /// A string with a summary, under each nonterminal that derives it.
    fn take(&mut self, lefts: &[u8], summary: Summary, schema: &Schema) {
        for &left in lefts {
            if left == 0 && !summary.balanced().is_some_and(|page| schema.valid(page)) {
                self.meet(answer::BROKEN_PAGE);
            }
            // A crowded round decides nothing by further images.
            if self.images.len() > IMAGES || !self.images.insert(summary.row(left)) {
                continue;
            }
            self.fresh.push((left, summary));
            if self.images.len() > IMAGES {
                self.meet(answer::CROWDED);
            }
        }
    }

    /// A string of too many tags: under the start it is also no valid page.
    fn take_deep(&mut self, lefts: &[u8]) {
        for &left in lefts {
            self.meet(if left == 0 {
                answer::BROKEN_PAGE
            } else {
                answer::BROKEN_DEEP
            });
        }
    }

    fn meet(&mut self, event: u32) {
        self.event = Some(self.event.map_or(event, |old| old.min(event)));
    }
}
