//! Grammars in which every nonterminal has one reduced form of its own, and the start mostly one outermost element: without a schema
//! in the way they pass, and one changed symbol breaks them.

use super::draft::Draft;
use super::numbers;
use plain::file::rule;
use seeds::Rng;
use std::collections::HashMap;

/// How many outermost elements there are before, between or after the tags of each string: none, one, or any number.
#[derive(Clone, Copy, PartialEq)]
enum Elements {
    None,
    One,
    Any,
}

use Elements::{Any, One};

/// The unmatched tags of a symbol's strings, and the elements around them.
#[derive(Clone)]
struct Form {
    tags: Vec<u8>,
    around: Vec<Elements>,
}

impl Form {
    /// Of one tag.
    fn tag(tag: u8) -> Form {
        Form {
            tags: vec![tag],
            around: vec![Elements::None; 2],
        }
    }

    /// Of balanced strings.
    fn balanced(elements: Elements) -> Form {
        Form {
            tags: Vec::new(),
            around: vec![elements],
        }
    }

    /// More elements behind the last tag.
    fn add(&mut self, more: Elements) {
        let last = self.around.len() - 1;
        self.around[last] = match (self.around[last], more) {
            (Elements::None, one) | (one, Elements::None) => one,
            _ => Any,
        };
    }

    /// Whether strings of this form may stand where those of another with the same tags are asked for.
    fn fits(&self, asked: &Form) -> bool {
        let mut pairs = self.around.iter().zip(&asked.around);
        pairs.all(|(one, asked)| one == asked || *asked == Any)
    }
}

/// Two forms laid end to end, none where tags do not fit or there are more than `most`.
fn joined(left: &Form, right: &Form, most: usize) -> Option<Form> {
    let mut form = left.clone();
    form.add(right.around[0]);
    for (&tag, &behind) in right.tags.iter().zip(&right.around[1..]) {
        match form.tags.last() {
            Some(&open) if open < 32 && tag >= 32 => {
                if tag != open + 32 {
                    return None;
                }
                form.tags.pop();
                form.around.pop();
                form.add(One);
                form.add(behind);
            }
            _ => {
                form.tags.push(tag);
                form.around.push(behind);
            }
        }
    }
    (form.tags.len() <= most).then_some(form)
}

/// A form at random over few names: ends, then starts.
fn form(names: u8, rng: &mut Rng) -> Form {
    let mut tags: Vec<u8> = Vec::new();
    if !rng.once_in(2) {
        let few = names.min(3) - 1;
        let ends = rng.pick(&[0, 0, 0, 1, 1, 2]);
        let starts = rng.pick(&[0, 0, 0, 1, 1, 2]);
        tags.extend((0..ends).map(|_| 32 + rng.byte(0, few)));
        tags.extend((0..starts).map(|_| rng.byte(0, few)));
    }
    let elements = [Any, Any, Elements::None, One];
    let around = (0..=tags.len()).map(|_| rng.pick(&elements)).collect();
    Form { tags, around }
}

/// The symbols with their forms: all tags of few names, all nonterminals.
fn symbols(names: u8, forms: &[Form]) -> Vec<(u8, Form)> {
    let few = names.min(6);
    let tags = (0..few).flat_map(|a| [a, 32 + a].map(|tag| (tag, Form::tag(tag))));
    let rest = forms
        .iter()
        .enumerate()
        .map(|(n, form)| (64 + n as u8, form.clone()));
    tags.chain(rest).collect()
}

/// For the tags of each form the right sides that have them, each with its own form.
fn rights(symbols: &[(u8, Form)]) -> HashMap<Vec<u8>, Vec<(Form, Vec<u8>)>> {
    let mut rights: HashMap<Vec<u8>, Vec<(Form, Vec<u8>)>> = HashMap::new();
    let mut add = |form: Form, right| {
        rights
            .entry(form.tags.clone())
            .or_default()
            .push((form, right))
    };
    add(Form::balanced(Elements::None), Vec::new());
    for (one, left) in symbols {
        add(left.clone(), vec![*one]);
        for (two, right) in symbols {
            if let Some(form) = joined(left, right, 4) {
                add(form, vec![*one, *two]);
            }
        }
    }
    rights
}

/// A typed grammar within the draft's numbers, about `each` rules to a nonterminal. Mostly its pages are one element; else any number of
/// them, and few such sets pass.
pub fn rules(draft: &mut Draft, each: usize, rng: &mut Rng) {
    let start = if rng.once_in(6) { Any } else { One };
    let mut forms: Vec<Form> = vec![Form::balanced(start)];
    forms.extend((1..draft.nonterminals).map(|_| form(draft.names, rng)));
    let rights = rights(&symbols(draft.names, &forms));
    draft.rules.clear();
    for (n, form) in forms.iter().enumerate() {
        let alike = rights.get(&form.tags).into_iter().flatten();
        let choices: Vec<&[u8]> = alike
            .filter(|(own, _)| own.fits(form))
            .map(|(_, right)| &right[..])
            .collect();
        if !choices.is_empty() {
            choose(draft, n as u8, &choices, each, rng);
        }
    }
}

/// Some rules of a nonterminal, and mostly one with a right side of tags alone, so that it derives something.
fn choose(draft: &mut Draft, n: u8, choices: &[&[u8]], each: usize, rng: &mut Rng) {
    for _ in 0..rng.within(1, each) {
        draft.rules.push(rule(n, rng.pick(choices)));
    }
    let tags_alone = |right: &&[u8]| right.iter().all(|&s| s < 64);
    let plain: Vec<&[u8]> = choices.iter().copied().filter(tags_alone).collect();
    if !plain.is_empty() && !rng.once_in(3) {
        draft.rules.push(rule(n, rng.pick(&plain)));
    }
}

/// Changes one symbol of one rule to another of the same draft.
pub fn spoil(draft: &mut Draft, rng: &mut Rng) {
    if draft.rules.is_empty() {
        return;
    }
    let at = rng.below(draft.rules.len());
    let length = draft.rules[at][1] as usize;
    if length > 0 {
        let symbol = numbers::symbol(draft, rng);
        draft.rules[at][2 + rng.below(length)] = symbol;
    }
}
