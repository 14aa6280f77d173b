//! Pages and fragments: the library against the plain implementation.
use crate::files::{idle_schema, open_schema, Set};
use crate::table::{section, Growth};
use crate::timing::{best, job};
use plain::ROW;
use seeds::Rng;
use std::hint::black_box;

/// About so many tags: in one element, elements nested so deep, side by side.
fn comb(set: &Set, depth: usize, tags: usize) -> Vec<u8> {
    let mut numbers = Rng::new(depth as u64);
    let mut page = vec![0];
    while page.len() < tags {
        let names: Vec<u8> = (0..depth)
            .map(|_| numbers.below(set.names as usize) as u8)
            .collect();
        page.extend(&names);
        page.extend(names.iter().rev().map(|a| 32 + a));
    }
    page.push(32);
    page
}

/// Times of a page by the library and by the plain implementation, which must both call it valid.
fn page_times(set: &Set, page: &[u8]) -> [f64; 2] {
    let file = set.bytes();
    assert_eq!(ujthanor::page(&file, page), Ok(()));
    assert_eq!(plain::page(&file, page).0, 0);
    let jobs = vec![
        job(|| ujthanor::calls::page(black_box(&file), black_box(page))),
        job(|| plain::page(black_box(&file), black_box(page))),
    ];
    best(jobs).try_into().unwrap()
}

/// The same for one tag.
fn tag_times(set: &Set, page: &[u8]) -> [f64; 2] {
    page_times(set, page).map(|t| t / page.len() as f64)
}

pub fn by_rules_and_depth() {
    section(
        "A page by schema rules and depth",
        "20,000 tags: in one element, elements nested so deep, side by side; 8 states. 4 rules have 4 names, 32 have 8, 128 have 32.",
    );
    let mut table = Growth::new(&["schema rules", "depth"]);
    for (names, rules) in [(4, 4), (8, 32), (32, 128)] {
        for depth in [1, 8, 15] {
            let set = open_schema(names, 8, rules);
            let page = comb(&set, depth, 20_000);
            table.row(
                &[rules.to_string(), depth.to_string()],
                tag_times(&set, &page),
            );
        }
    }
}

pub fn by_rules() {
    section(
        "An end tag by schema rules",
        "20,000 tags, 4 names, 8 states: for one depth the same page in each row, and the same relations. All but 4 rules never apply; they \
         are of the page's own names. \"Its first row\" is that of the same depth.",
    );
    let mut table = Growth::new(&["depth", "schema rules"]);
    for depth in [1, 8, 15] {
        table.afresh();
        let page = comb(&idle_schema(4), depth, 20_000);
        for rules in [4, 32, 128] {
            table.row(
                &[depth.to_string(), rules.to_string()],
                tag_times(&idle_schema(rules), &page),
            );
        }
    }
}

pub fn by_states() {
    section(
        "A page by states",
        "20,000 tags, depth 8, 32 schema rules over 32 names.",
    );
    let mut table = Growth::new(&["states"]);
    for states in [1, 2, 4, 8] {
        let set = open_schema(32, states, 32);
        let page = comb(&set, 8, 20_000);
        table.row(&[states.to_string()], tag_times(&set, &page));
    }
}

pub fn by_length() {
    section(
        "A page by length",
        "Depth 8, 8 states, 32 schema rules over 8 names.",
    );
    let mut table = Growth::new(&["tags"]);
    let set = open_schema(8, 8, 32);
    for tags in [16, 1_000, 10_000, 100_000, 1_000_000] {
        let page = comb(&set, 8, tags);
        table.row(&[page.len().to_string()], tag_times(&set, &page));
    }
}

fn fragment_times(file: &[u8], bytes: &[u8]) -> [f64; 2] {
    let (mut ours, mut theirs) = ([0; ROW], [0; ROW]);
    assert_eq!(ujthanor::calls::fragment(file, bytes, &mut ours).answer, 0);
    assert_eq!(plain::fragment(file, bytes, &mut theirs).0, 0);
    assert_eq!(ours, theirs);
    let jobs = vec![
        job(|| ujthanor::calls::fragment(file, black_box(bytes), &mut ours)),
        job(|| plain::fragment(file, black_box(bytes), &mut theirs)),
    ];
    best(jobs).try_into().unwrap()
}

pub fn fragments() {
    section(
        "Fragments",
        "8 states, 32 schema rules over 8 names. The last two have 8 ends and 8 starts unmatched.",
    );
    let mut table = Growth::new(&["fragment"]);
    let set = open_schema(8, 8, 32);
    let file = set.bytes();
    let inner = comb(&set, 7, 10_000);
    let unmatched = |inner: &[u8]| [&[32; 8], inner, &[1; 8]].concat();
    for (label, bytes) in [
        ("no tags", vec![]),
        ("10,000 tags, balanced", inner.clone()),
        ("16 tags", unmatched(&[])),
        ("10,000 tags and 16 more", unmatched(&inner)),
    ] {
        table.row(&[label.to_string()], fragment_times(&file, &bytes));
    }
}
