//! What a check must answer, by looking at the strings of all trees, height by height.

use super::derive::{summary, valid, Piece};
use super::trees::{useful, Cap, Strings};
use super::words::{mismatched, reduced};
use crate::file::File;
use std::collections::{BTreeSet, HashMap};

/// A nonterminal with a summary.
pub type Image = (usize, Vec<u8>, Vec<Piece>);

/// What is known of a string, so that it is judged once only.
#[derive(Clone)]
struct Judged {
    mismatched: bool,
    deep: bool,
    valid: bool,
    summary: (Vec<u8>, Vec<Piece>),
}

fn judge(file: &File, word: &[u8]) -> Judged {
    let mismatched = mismatched(word);
    Judged {
        mismatched,
        deep: !mismatched && reduced(word).len() > 16,
        valid: valid(file, word),
        summary: summary(file, word),
    }
}

/// What a check with this budget must say, by the definition of rounds and events: answer, round
/// and images. None where the enumeration passes the cap.
pub fn verdict(file: &File, budget: u64, cap: Cap) -> Option<(u32, u64, BTreeSet<Image>)> {
    let useful = useful(file);
    if !useful[0] {
        return Some((6, 0, BTreeSet::new()));
    }
    let mut known: HashMap<Vec<u8>, Judged> = HashMap::new();
    let mut strings = Strings::none(file);
    let mut before = BTreeSet::new();
    for round in 1..=budget {
        strings = strings.higher(file, cap)?;
        let (event, images) = look(file, &strings, &useful, &mut known);
        if let Some(event) = event {
            return Some((event, round, BTreeSet::new()));
        }
        if images == before {
            return Some((0, round, images));
        }
        before = images;
    }
    Some((5, budget, BTreeSet::new()))
}

/// The lowest event among all strings of useful nonterminals, and their images.
fn look(
    file: &File,
    strings: &Strings,
    useful: &[bool],
    known: &mut HashMap<Vec<u8>, Judged>,
) -> (Option<u32>, BTreeSet<Image>) {
    let mut events = BTreeSet::new();
    let mut images = BTreeSet::new();
    for n in (0..useful.len()).filter(|&n| useful[n]) {
        for word in &strings.0[n] {
            let judged = known
                .entry(word.clone())
                .or_insert_with(|| judge(file, word));
            if judged.mismatched {
                events.insert(1);
                continue;
            }
            if n == 0 && !judged.valid {
                events.insert(2);
            }
            if judged.deep {
                events.insert(3);
            }
            let (tags, pieces) = judged.summary.clone();
            images.insert((n, tags, pieces));
        }
    }
    if images.len() > 256 {
        events.insert(4);
    }
    (events.first().copied(), images)
}
