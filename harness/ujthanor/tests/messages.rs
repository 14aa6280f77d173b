//! What each refusal says, from a call that gives it.

mod common;

use common::{open, K, LONG};
use ujthanor::{calls, check, fragment, join, net_depth, page, split};
use ujthanor::{Call, Number, Refusal, Summary};
use ujthanor::{BUDGET, LONGEST, ROW, TABLE};

/// What is wrong, and what to do.
fn says<T: std::fmt::Debug>(refused: Result<T, Refusal>, problem: &str, remedy: &str) {
    assert_eq!(
        refused.unwrap_err().to_string(),
        format!("{problem} {remedy}")
    );
}

fn check_says(file: &[u8], problem: &str, remedy: &str) {
    says(check(file, &mut vec![0; TABLE], BUDGET), problem, remedy);
}

#[test]
fn broken_sets() {
    let mut mismatched = K;
    mismatched[27] = 32;
    check_says(
        &mismatched,
        "Some page of this set closes an element with another's end tag (first met in round 1).",
        "Mend the templates.",
    );
    let mut bare = K;
    bare[24..28].copy_from_slice(&[2, 0, 255, 255]);
    check_says(
        &bare,
        "Some page of this set is not valid under the schema (first met in round 3).",
        "Mend the templates or the schema.",
    );
}

/// Nonterminals 1 to 6 double start a to 32, 7 to 12 end a; the start is their pair.
fn doubled() -> Vec<u8> {
    let mut rules = vec![[0, 2, 70, 76], [1, 1, 0, 255]];
    rules.extend((2..=6).map(|n| [n, 2, 63 + n, 63 + n]));
    rules.push([7, 1, 32, 255]);
    rules.extend((8..=12).map(|n| [n, 2, 63 + n, 63 + n]));
    open(13, &rules)
}

/// 64 nonterminals in a chain, each giving the next; the last gives one of four empty elements or nothing, each with a relation of its
/// own.
fn crowded() -> Vec<u8> {
    let mut file = vec![4, 64, 5, 0, 16, 0, 68, 0, 32, 1, 4, 0, 48, 1, 5, 0];
    file.extend((0..63).flat_map(|n| [n, 1, 65 + n, 255]));
    file.extend([63, 0, 255, 255]);
    file.extend((0..4).flat_map(|a| [63, 2, a, 32 + a]));
    file.extend((0..4).flat_map(|a| [0, a, 0, a + 1]));
    file.extend(0..5);
    file
}

#[test]
fn undecided_sets() {
    check_says(
        &doubled(),
        "Undecided: some part of a page leaves more than 16 tags unmatched (first met in round 6).",
        "Split the template that opens or closes so many.",
    );
    check_says(
        &crowded(),
        "Undecided: the set's parts come in more than 256 different forms (first met in round 52).",
        "Split the set, or use fewer schema states.",
    );
    says(
        check(&K, &mut vec![0; TABLE], 3),
        "Undecided: the check has used its budget of 3.",
        "Check again with a budget of 257, which is always enough.",
    );
}

#[test]
fn sets_not_checked() {
    check_says(
        &open(1, &[[0, 2, 64, 32]]),
        "This set can produce no page at all.",
        "Add a rule by which the start comes to an end.",
    );
    let mut file = K;
    file[17] = 3;
    check_says(
        &file,
        "There is a fault at byte 17 of the template file.",
        "Mend what begins there.",
    );
    check_says(
        &K[..44],
        "There is a fault at byte 0 of the template file.",
        "Mend that byte, or the file's length.",
    );
    says(
        check(&K, &mut vec![0; TABLE], 0),
        "The budget is not from 1 to 257.",
        "Use 257.",
    );
    says(
        check(&K, &mut vec![0; TABLE - 1], 1),
        "The worktable has fewer than 5,376 entries.",
        "Lend a longer one.",
    );
}

#[test]
fn pages() {
    says(
        page(&K, &[0, 64]),
        "Something other than a tag of the file's elements stands at byte 1 of the page.",
        "Mend that byte, or give the file more elements.",
    );
    says(
        page(&K, &[0, 33]),
        "An element is closed with another's end tag at byte 1 of the page.",
        "Mend that tag, or the start tag that it meets.",
    );
    says(
        page(&K, &[0; 17]),
        "More than 16 tags are unmatched at byte 16 of the page.",
        "Nest less, or read smaller parts and join them.",
    );
    says(
        page(&K, &[0]),
        "Some of the page's tags are unmatched at its end.",
        "Add their partners, or take them away.",
    );
    for other in [&[][..], &[0, 32], &[0, 32, 1, 33]] {
        says(
            page(&K, other),
            "The page's tags match, but the schema does not allow it, or it has not exactly one outermost element.",
            "Mend the page or the schema.",
        );
    }
    says(
        page(&[], &[]),
        "There is a fault at byte 0 of the template file.",
        "Mend that byte, or the file's length.",
    );
}

#[test]
fn fragments() {
    says(
        fragment(&K, &[2]),
        "Something other than a tag of the file's elements stands at byte 0 of the fragment.",
        "Mend that byte, or give the file more elements.",
    );
    says(
        fragment(&K, &[0, 33]),
        "An element is closed with another's end tag at byte 1 of the fragment.",
        "Mend that tag, or the start tag that it meets.",
    );
    says(
        fragment(&K, &[32; 17]),
        "More than 16 tags are unmatched at byte 16 of the fragment.",
        "Nest less, or read smaller parts and join them.",
    );
    let r = calls::fragment(&K, &[], &mut [0; ROW - 1]);
    let short: Result<(), _> = Err(Refusal::of(Call::Fragment, r.answer, r.number));
    says(
        short,
        "The row for the summary has fewer than 21 entries.",
        "Lend one of 21.",
    );
}

#[test]
fn summaries() {
    let part = |bytes: &[u8]| fragment(&K, bytes).unwrap();
    let none = Summary([1; ROW]);
    says(
        join(&K, &part(&[0]), &part(&[33])),
        "The second part's end tags do not match the first part's start tags.",
        "Join parts that belong together.",
    );
    says(
        join(&K, &part(&[0; 9]), &part(&[0; 8])),
        "The two parts together leave more than 16 tags unmatched.",
        "Join in another order, or nest less.",
    );
    says(
        join(&K, &part(&[0]), &none),
        "One of the two summaries does not fit this template file.",
        "Make it anew with this file.",
    );
    says(
        net_depth(&K, &none),
        "The summary does not fit this template file.",
        "Make it anew with this file.",
    );
}

#[test]
fn splits() {
    let mut out = [0; LONGEST];
    says(
        split(&K, &mut out),
        "There is a fault at byte 8 of the file of long rules.",
        "Mend what begins there.",
    );
    says(
        split(&LONG[..46], &mut out),
        "There is a fault at byte 0 of the file of long rules.",
        "Mend that byte, or the file's length.",
    );
    let mut many = LONG;
    many[1] = 63;
    says(
        split(&many, &mut out),
        "Split up, these rules need more than 64 nonterminals or more than 256 rules.",
        "Shorten the longest rules, or make two sets of this one.",
    );
    says(
        split(&LONG, &mut out[..44]),
        "The output is shorter than the file to be written.",
        "Lend 1,560 bytes, which are always enough.",
    );
}

/// For every call and answer, and for numbers that are none: two sentences, and a number only where one is meant.
#[test]
fn every_message_is_two_sentences() {
    for call in Call::ALL {
        for answer in 1..=18 {
            let refusal = Refusal::of(call, answer, 987_654);
            let words = refusal.to_string();
            assert_eq!(words.matches(". ").count(), 1, "{words}");
            assert!(words.ends_with('.') && !words.contains(".."), "{words}");
            let meant = refusal.number != Number::Nothing;
            assert_eq!(words.contains("987654"), meant, "{words}");
        }
    }
    let unknown: Result<(), _> = Err(Refusal::of(Call::Page, 18, 0));
    says(
        unknown,
        "The library gave an answer that has no name here.",
        "Use wrapper and archive of one release.",
    );
}
