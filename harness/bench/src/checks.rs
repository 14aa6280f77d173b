//! Checks: the library against the plain implementation.
use crate::circles::{circle, large_circle, small_circle, with_back, with_barren, with_unreached};
use crate::files::{chain, k, Set};
use crate::sets::{hostile, hostile_early, hostile_middle, program};
use crate::table::{section, Growth};
use crate::timing::{best, job, now};
use plain::{BUDGET, TABLE};
use std::hint::black_box;
use std::time::Duration;

/// A check by the library that takes longer is timed once.
const ONCE: Duration = Duration::from_secs(2);

/// What both implementations answer, and their times.
fn timed(set: &Set) -> (ujthanor::calls::Check, [f64; 2]) {
    let file = set.bytes();
    let (mut ours, mut theirs) = (vec![0; TABLE], vec![0; TABLE]);
    let begun = now();
    let reply = ujthanor::calls::check(&file, &mut ours, BUDGET);
    let first = now() - begun;
    let other = plain::check(&file, &mut theirs, BUDGET);
    assert_eq!((reply.answer, reply.number, reply.images), other);
    assert_eq!(ours, theirs);
    if first > ONCE {
        let plain = best(vec![job(|| plain::check(&file, &mut theirs, BUDGET))]);
        return (reply, [first.as_nanos() as f64, plain[0]]);
    }
    let jobs = vec![
        job(|| ujthanor::calls::check(black_box(&file), &mut ours, BUDGET)),
        job(|| plain::check(black_box(&file), &mut theirs, BUDGET)),
    ];
    (reply, best(jobs).try_into().unwrap())
}

fn headed(first: &[&str]) -> Growth {
    Growth::new(&[first, &["answer, number, images"]].concat())
}

fn timed_row(table: &mut Growth, first: &[String], set: &Set) {
    let (reply, times) = timed(set);
    let answer = format!("{} {} {}", reply.answer, reply.number, reply.images);
    table.row(&[first, &[answer]].concat(), times);
}

/// A set's label, nonterminals and rules.
fn sized(label: &str, set: &Set) -> Vec<String> {
    let numbers = [set.nonterminals as usize, set.rules.len()].map(|n| n.to_string());
    [&[label.to_string()], &numbers[..]].concat()
}

pub fn sets() {
    section(
        "Checks",
        "Budget 257. Table 1 of the source: sets made with its numbers of nonterminals and rules, and with its column Irr(X) as the tags \
         of the longest reduced form, over a page schema of 9 rules and 8 states; its depths are not followed. The first is scaled from \
         102 and 170 to 64 and 107, for the limit of nonterminals. The hostile sets have two nonterminals of 100 images each.",
    );
    let mut table = headed(&["set", "nonterminals", "rules"]);
    for (label, set) in [
        ("K", k()),
        ("Table 1: WebCalendar, scaled", program(64, 107, 4)),
        ("Table 1: marktree", program(32, 54, 4)),
        ("Table 1: phpScheduleIt", program(24, 42, 8)),
        ("Table 1: mrtask", program(50, 70, 6)),
        ("chain of 64", chain(false)),
        ("chain of 64 with the empty string", chain(true)),
        ("circle of 64: 257 rounds", circle(64)),
        ("hostile, 2 tags, 1 rule", hostile(10, 1, 1, 0)),
        ("hostile, 2 tags, 10 rules", hostile(10, 1, 10, 0)),
        ("hostile, 2 tags, 64 rules", hostile(10, 1, 64, 0)),
        (
            "hostile, 2 tags, 1 rule, images found early",
            hostile_early(10, 1, 1),
        ),
        (
            "hostile, 2 tags, 10 rules, images found early",
            hostile_early(10, 1, 10),
        ),
        (
            "hostile, 2 tags, 10 rules, images found in the middle",
            hostile_middle(10, 10),
        ),
        ("hostile, 16 tags, 1 rule", hostile(10, 8, 1, 0)),
        (
            "hostile, 16 tags, 1 rule, 77 schema rules",
            hostile(10, 8, 1, 77),
        ),
        (
            "hostile, 16 tags, 64 rules, 77 schema rules",
            hostile(10, 8, 64, 77),
        ),
    ] {
        timed_row(&mut table, &sized(label, &set), &set);
    }
}

pub fn by_rounds() {
    section("A check by rounds", "A circle of n nonterminals has n + 1 rules and a new image in each of 4n rounds, by one join.");
    let mut table = headed(&["nonterminals"]);
    for n in [8, 16, 32, 64] {
        timed_row(&mut table, &[n.to_string()], &circle(n));
    }
}

pub fn of_many_rules() {
    section(
        "A check of 256 rules and 257 rounds",
        "A circle of 8 goes round 32 times, with 9 rules; beside them stand 247 useless ones, which change no reply and no row. Then a \
         circle of 64 goes round four times, with 65 rules; beside them stand 191 useful ones of two nonterminals, which find nothing \
         new. No two of these rules have the same right side. \"Its first row\" is the circle alone.",
    );
    let mut table = headed(&["set", "nonterminals", "rules"]);
    let (small, large) = (small_circle(), large_circle());
    for (label, set) in [
        ("circle of 8 alone", small.clone()),
        (
            "256 rules, 257 rounds: 247 whose left side is not reached or derives nothing",
            with_unreached(&small),
        ),
        (
            "256 rules, 257 rounds: 247 with a nonterminal on the right side that derives nothing",
            with_barren(&small),
        ),
    ] {
        timed_row(&mut table, &sized(label, &set), &set);
    }
    table.afresh();
    for (label, set) in [
        ("circle of 64 alone", large.clone()),
        ("256 rules, 257 rounds: all useful", with_back(&large)),
    ] {
        timed_row(&mut table, &sized(label, &set), &set);
    }
}

pub fn by_images() {
    section(
        "A check by images",
        "The hostile set with 2 tags and 1 rule, by the images of each of the two nonterminals.",
    );
    let mut table = headed(&["images of each", "joins of the pair"]);
    for width in [2u32, 4, 6, 8, 10] {
        let set = hostile(width as u8, 1, 1, 0);
        timed_row(
            &mut table,
            &[width.pow(2).to_string(), width.pow(4).to_string()],
            &set,
        );
    }
}

pub fn by_rules() {
    section(
        "A check by rules with the same right side",
        "The hostile set with 2 tags and 64 images of each of the two nonterminals.",
    );
    let mut table = headed(&["rules over the pair"]);
    for rules in [1, 2, 4, 8, 16, 32] {
        timed_row(&mut table, &[rules.to_string()], &hostile(8, 1, rules, 0));
    }
}
