//! Rounds, events, images and budgets against the definition over all trees.

use plain::file::read;
use plain::oracle::reading::row;
use plain::oracle::trees::Cap;
use plain::oracle::verdict::{verdict, Image};
use plain::{ROW, TABLE};
use seeds::Rng;
use std::collections::BTreeSet;
use trials::gen::{named, sets};
use trials::library::check;

const CAP: Cap = Cap {
    strings: 300,
    tags: 40,
};

/// The images as ascending rows, then the rest.
fn worktable(images: &BTreeSet<Image>, rest: u64) -> Vec<u64> {
    let of = |(n, tags, pieces): &Image| row(*n, tags, pieces);
    let mut rows: Vec<_> = images.iter().map(of).collect();
    rows.sort();
    let mut table = rows.concat();
    table.resize(TABLE, rest);
    table
}

#[test]
fn the_check_is_what_all_trees_say() {
    let mut rng = Rng::new(31);
    let mut seen = [0u32; 7];
    for turn in 0..9_000 {
        let draft = if turn % 3 == 0 {
            sets::any(&mut rng)
        } else {
            sets::small(&mut rng)
        };
        let bytes = draft.bytes();
        let budget = rng.pick(&[1, 2, 3, 5, 64, 257]);
        let file = read(&bytes).expect("sound");
        let Some((answer, round, images)) = verdict(&file, budget as u64, CAP) else {
            continue;
        };
        let mut table = vec![7; TABLE];
        let reply = check(&bytes, &mut table, budget);
        assert_eq!(
            reply,
            (answer, round, images.len() as u64),
            "budget {budget}, file {bytes:?}"
        );
        // After a refusal the table is as it was lent.
        let rest = if answer == 6 { 7 } else { 0 };
        let told = worktable(&images, rest);
        assert!(
            table == told,
            "the table differs: budget {budget}, file {bytes:?}"
        );
        seen[answer as usize] += 1;
    }
    println!("{seen:?}");
    assert!(seen.iter().all(|&times| times >= 40), "{seen:?}");
}

#[test]
fn a_larger_budget_changes_only_answer_5() {
    let mut rng = Rng::new(32);
    let mut table = vec![7; TABLE];
    let mut lent = vec![7; TABLE];
    let mut cut = 0;
    for _ in 0..1_500 {
        let bytes = sets::any(&mut rng).bytes();
        table.fill(7);
        let full = check(&bytes, &mut table, 257);
        assert_ne!(full.0, 5, "file {bytes:?}");
        let mut budgets = vec![1, 2, 3, rng.within(1, 257), 64, 256];
        budgets.extend([full.1 as usize, (full.1 as usize).saturating_sub(1)]);
        for budget in budgets.into_iter().filter(|&budget| budget > 0) {
            lent.fill(7);
            let reply = check(&bytes, &mut lent, budget);
            if full.0 == 6 || full.1 <= budget as u64 {
                assert_eq!(reply, full, "budget {budget}, file {bytes:?}");
                assert!(lent == table, "budget {budget}, file {bytes:?}");
            } else {
                assert_eq!(reply, (5, budget as u64, 0), "file {bytes:?}");
                assert!(lent.iter().all(|&entry| entry == 0));
                cut += 1;
            }
        }
    }
    assert!(cut > 1_000, "{cut}");
}

#[test]
fn the_bound_257_is_tight() {
    let mut table = vec![7; TABLE];
    let pass = named::longest_pass().bytes();
    assert_eq!(check(&pass, &mut table, 256), (5, 256, 0));
    assert_eq!(check(&pass, &mut table, 257), (0, 257, 256));
    assert!(table
        .chunks(ROW)
        .all(|row| row.iter().any(|&entry| entry != 0)));
    assert!(table.chunks(ROW).is_sorted_by(|one, two| one < two));
    let crowd = named::latest_crowd().bytes();
    assert_eq!(check(&crowd, &mut table, 256), (5, 256, 0));
    assert_eq!(check(&crowd, &mut table, 257), (4, 257, 0));
}
