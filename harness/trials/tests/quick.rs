//! The quick run: seeded rounds over all kinds of input, and a look at what they saw.

use seeds::Rng;
use trials::tally::{Tally, ANSWERS, CHECK, FRAGMENT, JOIN, NET_DEPTH, PAGE, SPLIT};
use trials::trial::{round, QUICK};

const ROUNDS: u64 = 12_000;

#[test]
fn both_sides_agree_and_every_answer_is_seen() {
    let mut tally = Tally::default();
    for seed in 0..ROUNDS {
        let mut rng = Rng::new(0x0100_0000 + seed);
        if let Err(difference) = round(&QUICK, &mut rng, &mut tally) {
            panic!("seed {seed}: {difference}");
        }
    }
    println!("{tally}");
    for answer in 0..ANSWERS {
        assert!(
            tally.answer(answer) >= 100,
            "answer {answer} is too rare:\n{tally}"
        );
    }
    let given = [
        (CHECK, vec![0, 1, 2, 3, 4, 5, 6, 7, 8, 9]),
        (PAGE, vec![0, 7, 10, 11, 12, 13, 14]),
        (FRAGMENT, vec![0, 7, 10, 11, 12, 17]),
        (JOIN, vec![0, 7, 11, 12, 15, 17]),
        (NET_DEPTH, vec![0, 7, 15]),
        (SPLIT, vec![0, 7, 16, 17]),
    ];
    for (call, answers) in given {
        let seen: Vec<u32> = (0..ANSWERS)
            .filter(|&a| tally.seen(call, a) >= 50)
            .collect();
        assert_eq!(seen, answers, "call {call}:\n{tally}");
    }
}
