//! Where the limit of 16 tags lies: in what a part leaves unmatched, not in how deep it nests.

mod common;

use common::open;
use ujthanor::{check, page, Answer, Pass, BUDGET, TABLE};

const START: u8 = 0;
const END: u8 = 32;

/// Rules by which nonterminals from `first` on give these tags, one each.
fn spelled(first: u8, tags: &[u8]) -> Vec<[u8; 4]> {
    let rule = |(n, tag): (u8, &u8)| [n, 2, *tag, 64 + n + 1];
    let mut rules: Vec<[u8; 4]> = (first..).zip(tags).map(rule).collect();
    let last = rules.last_mut().unwrap();
    (last[1], last[3]) = (1, 255);
    rules
}

/// A set of one page: in its outermost element so many starts, then a part with as many ends and 8 starts, then 8 ends.
fn shut_and_opened(ends: usize) -> Vec<u8> {
    let part = [vec![END; ends], vec![START; 8]].concat();
    let (before, middle) = (2, 3 + ends as u8);
    let after = middle + part.len() as u8;
    let mut rules = vec![[0, 2, 64 + 1, 64 + after], [1, 2, 64 + before, 64 + middle]];
    rules.extend(spelled(before, &vec![START; 1 + ends]));
    rules.extend(spelled(middle, &part));
    rules.extend(spelled(after, &[END; 8 + 1]));
    open(after + 8 + 1, &rules)
}

fn answered(file: &[u8]) -> Result<Pass, Answer> {
    check(file, &mut vec![0; TABLE], BUDGET).map_err(|refusal| refusal.answer)
}

#[test]
fn nine_ends_and_eight_starts_are_too_many() {
    assert!(answered(&shut_and_opened(8)).is_ok());
    assert_eq!(answered(&shut_and_opened(9)), Err(Answer::SetTooDeep));
}

/// A set of one page, an element in an element and so on: each of two nonterminals gives a start or an end tag, and what is between.
fn nested(depth: u8) -> Vec<u8> {
    let levels = (0..depth).flat_map(|i| {
        let (element, inside, next) = (2 * i, 2 * i + 1, 2 * i + 2);
        [
            [element, 2, START, 64 + inside],
            [inside, 2, 64 + next, END],
        ]
    });
    let mut rules: Vec<[u8; 4]> = levels.collect();
    rules.last_mut().unwrap()[1..].copy_from_slice(&[1, END, 255]);
    open(2 * depth, &rules)
}

#[test]
fn twenty_deep_is_no_fault_of_a_set() {
    let file = nested(21);
    assert!(answered(&file).is_ok());
    let written = [[START; 21], [END; 21]].concat();
    let refusal = page(&file, &written).unwrap_err();
    assert_eq!(refusal.answer, Answer::TooDeep);
}
