//! The two readings of the rules against each other, and the definitions on small words.

use plain::file::{read, File};
use plain::oracle::contexts::contexts;
use plain::oracle::derive::valid;
use plain::oracle::reading;
use plain::oracle::trees::Cap;
use plain::oracle::verdict::verdict;
use plain::oracle::words::{
    is_one_element, mismatched, nests_past_16, outermost, reduced, Balanced,
};
use plain::ROW;

const K: [u8; 45] = [
    2, 3, 2, 0, 16, 0, 3, 0, 28, 0, 4, 0, 44, 0, 1, 0, 0, 2, 65, 32, 1, 2, 0, 66, 2, 2, 1, 33, 0,
    0, 0, 1, 0, 0, 1, 0, 0, 1, 1, 1, 1, 0, 1, 1, 1,
];

const CAP: Cap = Cap {
    strings: 100,
    tags: 40,
};

#[test]
fn words() {
    assert!(Balanced::of(&[0, 1, 33, 32]).holds(0, 4));
    assert!(!Balanced::of(&[0, 1, 32, 33]).holds(0, 4));
    assert!(mismatched(&[32, 0, 1, 33, 33]));
    assert!(!mismatched(&[33, 32, 0, 1]));
    assert_eq!(reduced(&[32, 0, 32, 1, 0, 32]), [0, 3]);
    assert!(is_one_element(&[0, 1, 33, 0, 32, 32]));
    for none in [&[][..], &[0], &[0, 33], &[32, 0], &[0, 32, 0, 32]] {
        assert!(!is_one_element(none), "{none:?}");
    }
    assert_eq!(outermost(&[0, 1, 33, 32, 0, 32]), [0, 4]);
    assert_eq!(outermost(&[]), []);
    assert_eq!(nests_past_16(&[0; 16]), None);
    assert_eq!(nests_past_16(&[0; 18]), Some(16));
}

#[test]
fn pages_of_k() {
    let k = read(&K).expect("K is sound");
    assert!(valid(&k, &[0, 1, 33, 32]));
    assert!(!valid(&k, &[0, 32, 1, 33]));
    assert!(!valid(&k, &[]));
    assert!(!valid(&k, &[1, 33, 1, 33]));
    assert_eq!(reading::page(&k, &[32, 0, 33]), (11, 2));
    assert_eq!(reading::page(&k, &[0; 17]), (12, 16));
}

#[test]
fn all_short_words_of_k() {
    let k = read(&K).expect("K is sound");
    let tags = [0, 1, 32, 33, 2];
    for length in 0..=5 {
        for mut number in 0..5usize.pow(length) {
            let mut word = Vec::new();
            for _ in 0..length {
                word.push(tags[number % 5]);
                number /= 5;
            }
            assert_eq!(plain::page(&K, &word), reading::page(&k, &word), "{word:?}");
            let mut row = [9; ROW];
            let (answer, number) = plain::fragment(&K, &word, &mut row);
            assert_eq!(
                (answer, number, row),
                reading::fragment(&k, &word),
                "{word:?}"
            );
        }
    }
}

#[test]
fn verdict_of_k() {
    let k = read(&K).expect("K is sound");
    let (answer, round, images) = verdict(&k, 64, CAP).expect("K is small");
    assert_eq!((answer, round, images.len()), (0, 4, 3));
    assert_eq!(verdict(&k, 3, CAP).expect("K is small").0, 5);
    // Nothing twice, and an element twice: the schema takes both, but neither is one element.
    for last in [[2, 0, 255, 255], [2, 2, 0, 32]] {
        let rules = [[0, 1, 65, 255], [1, 2, 66, 66], last];
        let open = File {
            names: 1,
            nonterminals: 3,
            states: 1,
            rules: &rules,
            schema: &[[0, 0, 0, 0]],
            ending: &[0],
        };
        assert_eq!(verdict(&open, 64, CAP).expect("small").0, 2);
    }
    let around = contexts(&k, CAP);
    assert_eq!(around[2], Some((vec![0], vec![32])));
}
