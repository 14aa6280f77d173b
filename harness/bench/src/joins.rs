//! Joins and net depths: the library against the plain implementation.
use crate::files::{k, open_schema};
use crate::table::{section, Growth};
use crate::timing::{best, job};
use plain::{Row, ROW};
use std::hint::black_box;

/// The row of a fragment's summary.
fn summary(file: &[u8], bytes: &[u8]) -> Row {
    ujthanor::fragment(file, bytes).unwrap().0
}

fn join_times(file: &[u8], left: &[u64], right: &[u64]) -> [f64; 2] {
    let (mut ours, mut theirs) = ([0; ROW], [0; ROW]);
    assert_eq!(
        ujthanor::calls::join(file, left, right, &mut ours).answer,
        0
    );
    assert_eq!(plain::join(file, left, right, &mut theirs).0, 0);
    assert_eq!(ours, theirs);
    let jobs = vec![
        job(|| ujthanor::calls::join(file, black_box(left), black_box(right), &mut ours)),
        job(|| plain::join(file, black_box(left), black_box(right), &mut theirs)),
    ];
    best(jobs).try_into().unwrap()
}

pub fn joins() {
    section(
        "Joins",
        "8 states. Left and right are given by their unmatched tags.",
    );
    let mut table = Growth::new(&["schema rules", "left", "right", "cancelling"]);
    for (names, rules) in [(4, 4), (32, 128)] {
        let file = open_schema(names, 8, rules).bytes();
        for (left, ends, starts) in [
            (0, 0, 0),
            (1, 1, 0),
            (2, 0, 2),
            (8, 0, 8),
            (16, 8, 8),
            (16, 16, 0),
        ] {
            let a = summary(&file, &vec![1; left]);
            let b = summary(&file, &[vec![33; ends], vec![1; starts]].concat());
            let cells = [
                rules.to_string(),
                format!("{left} starts"),
                format!("{ends} ends, {starts} starts"),
                ends.min(left).to_string(),
            ];
            table.row(&cells, join_times(&file, &a, &b));
        }
    }
}

fn depth_times(file: &[u8], summary: &[u64]) -> [f64; 2] {
    assert_eq!(ujthanor::calls::net_depth(file, summary).depth, 16);
    assert_eq!(plain::net_depth(file, summary).2, 16);
    let jobs = vec![
        job(|| ujthanor::calls::net_depth(black_box(file), black_box(summary))),
        job(|| plain::net_depth(black_box(file), black_box(summary))),
    ];
    best(jobs).try_into().unwrap()
}

pub fn net_depths() {
    section(
        "Net depth",
        "Of 16 starts. The call reads the file, looks whether the row is a summary and subtracts: what every join pays too.",
    );
    let mut table = Growth::new(&["file", "bytes"]);
    let mut longest = open_schema(32, 8, 128);
    longest.nonterminals = 64;
    longest.rules = (0..=255).map(|i| [i / 4, 2, i % 4, 127]).collect();
    for (label, file) in [
        ("K", k().bytes()),
        ("256 template rules, 128 schema rules", longest.bytes()),
    ] {
        let times = depth_times(&file, &summary(&file, &[1; 16]));
        table.row(&[label.to_string(), file.len().to_string()], times);
    }
}
