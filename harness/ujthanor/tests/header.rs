//! The wrapper has the header's numbers: its layout, its sizes and its answers.

use std::collections::BTreeMap;
use ujthanor::{Answer, BUDGET, LAYOUT, LONGEST, ROW, TABLE};

const HEADER: &str = include_str!("../../../include/ujthanor.h");

/// The header's names and numbers, from `NAME = number` and `#define NAME number`.
fn numbers() -> BTreeMap<String, u64> {
    let named = HEADER.lines().filter_map(|line| {
        let words: Vec<&str> = line.split_whitespace().collect();
        let (name, number) = match words[..] {
            ["#define", name, number, ..] => (name, number),
            [name, "=", number, ..] => (name, number),
            _ => return None,
        };
        let number = number.trim_end_matches(',').parse().ok()?;
        Some((name.strip_prefix("UJTHANOR_")?.to_string(), number))
    });
    named.collect()
}

/// `NotATag` as the header has it, `NOT_A_TAG`.
fn capitals(answer: Answer) -> String {
    let name = format!("{answer:?}");
    let parts = name.chars().enumerate().flat_map(|(i, c)| {
        let gap = (i > 0 && c.is_uppercase()).then_some('_');
        gap.into_iter().chain(c.to_uppercase())
    });
    parts.collect()
}

#[test]
fn layout_and_sizes() {
    let numbers = numbers();
    assert_eq!(numbers["LAYOUT"], u64::from(LAYOUT));
    assert_eq!(numbers["TABLE"], TABLE as u64);
    assert_eq!(numbers["ROW"], ROW as u64);
    assert_eq!(numbers["BUDGET"], BUDGET as u64);
    assert_eq!(numbers["LONGEST"], LONGEST as u64);
}

#[test]
fn answers() {
    let mut numbers = numbers();
    for other in ["LAYOUT", "TABLE", "ROW", "BUDGET", "LONGEST", "STACK"] {
        assert!(numbers.remove(other).is_some(), "{other}");
    }
    assert_eq!(numbers.remove("OK"), Some(0));
    for answer in Answer::ALL {
        let number = numbers.remove(&capitals(answer));
        assert_eq!(number, Some(answer as u64), "{answer:?}");
    }
    // Two names of one number: what is lent for writing is too short.
    let short = numbers.remove("SHORT_OUTPUT");
    assert_eq!(short, Some(Answer::ShortOutput as u64));
    assert!(numbers.is_empty(), "only in the header: {numbers:?}");
}
