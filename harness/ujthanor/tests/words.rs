//! The calls in Rust's own words, on the README's set.

mod common;

use common::{open, K, LONG};
use ujthanor::{
    check, fragment, join, net_depth, page, split, Answer, Call, Number, Pass, Refusal, Summary,
};
use ujthanor::{BUDGET, LONGEST, ROW, TABLE};

fn refused<T>(call: Call, answer: Answer, number: u64) -> Result<T, Refusal> {
    Err(Refusal::of(call, answer as u32, number))
}

#[test]
fn a_set() {
    let mut table = [7; TABLE];
    let pass = Pass {
        round: 4,
        images: 3,
    };
    assert_eq!(check(&K, &mut table, BUDGET), Ok(pass));
    assert_eq!(table[0], 0);
    let refused = |answer, number| refused(Call::Check, answer, number);
    assert_eq!(check(&K, &mut table, 3), refused(Answer::BudgetUsed, 3));
    assert_eq!(
        check(&K, &mut table[1..], 3),
        refused(Answer::ShortTable, 0)
    );
    assert_eq!(check(&K, &mut table, 258), refused(Answer::BadBudget, 0));
    assert_eq!(check(&K[..44], &mut table, 3), refused(Answer::BadFile, 0));
}

#[test]
fn threads_share_a_file() {
    let checked = || check(&K, &mut vec![7; TABLE], BUDGET).map(|pass| pass.images);
    std::thread::scope(|scope| {
        let threads: Vec<_> = (0..8)
            .map(|_| scope.spawn(|| (0..100).all(|_| checked() == Ok(3))))
            .collect();
        assert!(threads.into_iter().all(|thread| thread.join().unwrap()));
    });
}

#[test]
fn pages() {
    let refused = |answer, number| refused(Call::Page, answer, number);
    assert_eq!(page(&K, &[0, 1, 33, 32]), Ok(()));
    assert_eq!(page(&K, &[2]), refused(Answer::NotATag, 0));
    assert_eq!(page(&K, &[0, 33]), refused(Answer::Mismatch, 1));
    assert_eq!(page(&K, &[0; 17]), refused(Answer::TooDeep, 16));
    assert_eq!(page(&K, &[0]), refused(Answer::Unmatched, 0));
    assert_eq!(page(&K, &[0, 32]), refused(Answer::NotDerived, 0));
    // What the schema takes, but no one element: nothing, or several side by side.
    assert_eq!(page(&K, &[0, 32, 1, 33]), refused(Answer::NotDerived, 0));
    let open = open(1, &[]);
    for elements in 0..4 {
        let told = match elements {
            1 => Ok(()),
            _ => refused(Answer::NotDerived, 0),
        };
        assert_eq!(page(&open, &[0, 32].repeat(elements)), told);
    }
}

/// A valid page that nests so deep: a in a, and innermost a b.
fn nested(depth: usize) -> Vec<u8> {
    [vec![0; depth - 1], vec![1, 33], vec![32; depth - 1]].concat()
}

#[test]
fn a_valid_page_is_too_deep_past_16() {
    for depth in 1..=16 {
        assert_eq!(page(&K, &nested(depth)), Ok(()));
    }
    for depth in 17..40 {
        let told = refused(Call::Page, Answer::TooDeep, 16);
        assert_eq!(page(&K, &nested(depth)), told);
    }
}

#[test]
fn cached_parts() {
    let head = fragment(&K, &[0, 1]).unwrap();
    let tail = fragment(&K, &[33, 32]).unwrap();
    assert_eq!(net_depth(&K, &head), Ok(2));
    assert_eq!(net_depth(&K, &tail), Ok(-2));
    assert_eq!(join(&K, &head, &tail), fragment(&K, &[0, 1, 33, 32]));
    assert_eq!(join(&K, &head, &head).map(|s| net_depth(&K, &s)), Ok(Ok(4)));
    let other = fragment(&K, &[32]).unwrap();
    let refused = |answer| refused(Call::Join, answer, 0);
    assert_eq!(join(&K, &head, &other), refused(Answer::Mismatch));
    let counted = |bytes: &[u8]| fragment(&K, bytes).unwrap().0[ROW - 1];
    assert_eq!([&[][..], &[0, 32], &[0, 32, 1, 33]].map(counted), [0, 1, 2]);
    let none = Summary([1; ROW]);
    assert_eq!(join(&K, &head, &none), refused(Answer::NoSummary));
    let mut three = head;
    three.0[ROW - 1] = 3;
    assert_eq!(join(&K, &three, &tail), refused(Answer::NoSummary));
    let told = net_depth(&K, &none).unwrap_err();
    assert_eq!(
        (told.call, told.answer),
        (Call::NetDepth, Answer::NoSummary)
    );
}

#[test]
fn a_long_rule() {
    let mut out = [9; LONGEST];
    assert_eq!(split(&LONG, &mut out), Ok(45));
    assert_eq!(out[1], 3);
    assert_eq!(out[16..28], [0, 2, 0, 65, 1, 2, 1, 66, 2, 2, 33, 32]);
    assert_eq!(out[28..45], K[28..]);
    assert!(out[45..].iter().all(|&byte| byte == 9));
    let pass = check(&out[..45], &mut [7; TABLE], BUDGET).unwrap();
    assert_eq!((pass.round, pass.images), (4, 3));
}

#[test]
fn splits_refused() {
    let mut out = [9; LONGEST];
    let refused = |answer, number| refused(Call::Split, answer, number);
    assert_eq!(split(&K, &mut out), refused(Answer::BadFile, 8));
    let mut many = LONG;
    many[1] = 63;
    assert_eq!(split(&many, &mut out), refused(Answer::TooMany, 0));
    let short = split(&LONG, &mut out[..44]);
    assert_eq!(short, refused(Answer::ShortOutput, 0));
    assert_eq!(out, [9; LONGEST]);
}

#[test]
fn every_answer_has_its_name() {
    for number in 1..=17 {
        let answer = Answer::of(number);
        assert_eq!(answer as u32, number);
        assert_ne!(answer, Answer::Unknown);
    }
    assert_eq!(Answer::of(18), Answer::Unknown);
}

#[test]
fn a_refusal_knows_what_its_number_is() {
    let number = |call, answer: Answer| Refusal::of(call, answer as u32, 5).number;
    for answer in &Answer::ALL[..4] {
        assert_eq!(number(Call::Check, *answer), Number::Round(5));
    }
    assert_eq!(number(Call::Check, Answer::BudgetUsed), Number::Budget(5));
    for call in Call::ALL {
        assert_eq!(number(call, Answer::BadFile), Number::Place(5));
    }
    for answer in [Answer::NotATag, Answer::Mismatch, Answer::TooDeep] {
        assert_eq!(number(Call::Page, answer), Number::Place(5));
        assert_eq!(number(Call::Fragment, answer), Number::Place(5));
    }
    assert_eq!(number(Call::Join, Answer::Mismatch), Number::Nothing);
    assert_eq!(number(Call::Join, Answer::TooDeep), Number::Nothing);
    for answer in [Answer::NoPage, Answer::BadBudget, Answer::ShortTable] {
        assert_eq!(number(Call::Check, answer), Number::Nothing);
    }
    for answer in [Answer::TooMany, Answer::ShortOutput] {
        assert_eq!(number(Call::Split, answer), Number::Nothing);
    }
}
