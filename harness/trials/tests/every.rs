//! Small ranges gone through from end to end.

use plain::{DEEPEST, IMAGES, LONGEST, ROW, TABLE};
use seeds::Rng;
use std::collections::BTreeSet;
use trials::gen::rows::{self, Under};
use trials::gen::{damage, named, sets};
use trials::same::{same_check, same_fragment, same_join, same_net_depth, same_page, Agreed};

fn must(agreed: Agreed) -> u32 {
    agreed.unwrap_or_else(|difference| panic!("{difference}"))
}

fn all_calls(file: &[u8], rng: &mut Rng) {
    must(same_check(file, TABLE + 1, 64, rng));
    must(same_page(file, &[1, 33]));
    must(same_fragment(file, &[32, 0], ROW, rng));
    must(same_join(file, &[0; ROW], &[0; ROW], ROW, rng));
    must(same_net_depth(file, &[0; ROW]));
}

/// The place at which a check finds a fault, if it finds one.
fn place(file: &[u8]) -> Option<u64> {
    let (answer, place, _) = trials::library::check(file, &mut vec![0; TABLE], 1);
    (answer == 7).then_some(place)
}

#[test]
fn each_byte_of_k_with_each_value() {
    let mut rng = Rng::new(1);
    let k = named::k().bytes();
    let mut places = BTreeSet::new();
    for at in 0..k.len() {
        for value in 0..=255 {
            let mut file = k.clone();
            file[at] = value;
            all_calls(&file, &mut rng);
            places.extend(place(&file));
        }
    }
    // The first bytes of the fields, no second byte of a 16-bit number.
    let fields = (0..5).chain([6, 8, 10, 12, 14]).chain(16..45);
    assert_eq!(places, fields.collect());
}

#[test]
fn each_two_bytes_of_k_with_some_values() {
    let mut rng = Rng::new(10);
    let k = named::k().bytes();
    let values = [0, 1, 2, 4, 40, 70, 255];
    for one in 0..k.len() {
        for two in 0..one {
            for pair in 0..values.len() * values.len() {
                let mut file = k.clone();
                file[one] = values[pair % values.len()];
                file[two] = values[pair / values.len()];
                must(same_fragment(&file, &[32, 0], ROW, &mut rng));
            }
        }
    }
}

#[test]
fn each_length_of_a_file() {
    let mut rng = Rng::new(2);
    for draft in [named::k(), named::chain(64, 4, true)] {
        let file = draft.bytes();
        for length in 0..file.len() + 20 {
            let mut cut = file.clone();
            cut.resize(length, 0);
            all_calls(&cut, &mut rng);
            assert_eq!(place(&cut).is_none(), length == file.len());
        }
    }
}

#[test]
fn each_length_of_a_table() {
    let mut rng = Rng::new(3);
    for named in named::all() {
        let file = named.draft.bytes();
        // Around the length that is asked for, and that of rows with an entry less.
        let near = [TABLE - IMAGES, TABLE].map(|length| length - ROW..=length + ROW);
        for length in (0..3).chain(near.into_iter().flatten()).chain([2 * TABLE]) {
            let answer = must(same_check(&file, length, 20, &mut rng));
            assert_eq!(answer == 9, length < TABLE);
        }
    }
}

#[test]
fn each_budget() {
    let mut rng = Rng::new(4);
    for draft in [
        named::k(),
        named::chain(64, 4, false),
        named::k_barren(),
        named::ladder(17),
    ] {
        let file = draft.bytes();
        for budget in (0..=70)
            .chain(250..=260)
            .chain([usize::MAX - 1, usize::MAX])
        {
            let answer = must(same_check(&file, TABLE, budget, &mut rng));
            assert_eq!(answer == 8, !(1..=257).contains(&budget));
        }
    }
}

#[test]
fn each_length_of_a_row() {
    let mut rng = Rng::new(5);
    for file in [named::k().bytes(), named::k_barren().bytes(), vec![1]] {
        for length in 0..=2 * ROW {
            for bytes in [&[32, 0][..], &[0, 33], &[9], &[0; 20]] {
                let answer = must(same_fragment(&file, bytes, length, &mut rng));
                assert_eq!(answer == 17, length < ROW);
            }
            let answer = must(same_join(&file, &[0; ROW], &[0; ROW], length, &mut rng));
            assert_eq!(answer == 17, length < ROW);
            must(same_join(&file, &vec![0; length], &[0; ROW], ROW, &mut rng));
            must(same_join(&file, &[0; ROW], &vec![0; length], ROW, &mut rng));
            must(same_net_depth(&file, &vec![0; length]));
        }
    }
}

#[test]
fn each_way_of_a_broken_row() {
    let mut rng = Rng::new(6);
    for way in 0..rows::WAYS {
        let mut refused = 0;
        for _ in 0..400 {
            let file = sets::any(&mut rng).bytes();
            let under = Under {
                file: &file,
                names: file[0],
                states: file[2],
            };
            let row = rows::broken_by(way, under, &mut rng);
            let good = rows::invented(under, &mut rng);
            let answer = must(same_net_depth(&file, &row));
            assert_eq!(
                must(same_join(&file, &row, &good, ROW, &mut rng)) == 15,
                answer == 15
            );
            assert_eq!(
                must(same_join(&file, &good, &row, ROW, &mut rng)) == 15,
                answer == 15
            );
            refused += u32::from(answer == 15);
        }
        assert!(refused >= 200, "way {way}: {refused}");
    }
}

#[test]
fn each_count_at_each_place() {
    let mut rng = Rng::new(13);
    let k = named::k().bytes();
    let empty = [0; ROW];
    for tags in 0..=DEEPEST {
        let mut good = [0; ROW];
        assert_eq!(
            trials::library::fragment(&k, &vec![0; tags], &mut good).0,
            0
        );
        for place in 0..32 {
            for count in 1..4 {
                let mut row = good;
                row[ROW - 1] = count << (2 * place);
                let answer = must(same_net_depth(&k, &row));
                assert_eq!(answer == 0, place <= tags && count < 3);
                for (left, right) in [(row, empty), (empty, row)] {
                    assert_eq!(must(same_join(&k, &left, &right, ROW, &mut rng)), answer);
                }
            }
        }
    }
}

#[test]
fn faults_of_every_field_of_large_files() {
    let mut rng = Rng::new(7);
    let mut places = BTreeSet::new();
    for _ in 0..12_000 {
        let draft = sets::any(&mut rng);
        let file = damage::any(&draft, &mut rng);
        must(same_page(&file, &[0, 32]));
        places.extend(place(&file));
    }
    let contents = [0, 1, 2, 3, 4, 6, 8, 10, 12, 14];
    assert!(
        contents.iter().all(|place| places.contains(place)),
        "{places:?}"
    );
    assert!(places.range(16..1_040).count() > 400, "{places:?}");
    assert!(places.range(1_040..).count() > 50, "{places:?}");
}

#[test]
fn the_longest_file() {
    let mut rng = Rng::new(8);
    let mut longest = 0;
    for _ in 0..3_000 {
        let file = sets::any(&mut rng).bytes();
        if file.len() == LONGEST {
            longest += 1;
            must(same_check(&file, TABLE + 5, 257, &mut rng));
            let more = [&file[..], &[8]].concat();
            assert_eq!(must(same_check(&more, TABLE + 5, 257, &mut rng)), 7);
            assert_eq!(place(&more), Some(0));
        }
    }
    assert!(longest >= 50, "{longest}");
}

#[test]
fn places_past_every_small_number() {
    let mut rng = Rng::new(9);
    let k = named::k().bytes();
    for pairs in [127, 128, 32_767, 32_768, 40_000, 100_000] {
        let mut long = [0, 32].repeat(pairs);
        must(same_page(&k, &long));
        let place = long.len() as u64;
        for (tail, answer) in [(vec![0, 33], 11), (vec![0; 17], 12), (vec![2], 10)] {
            let further = tail.len() as u64 - 1;
            long.extend(&tail);
            assert_eq!(must(same_page(&k, &long)), answer);
            assert_eq!(trials::library::page(&k, &long), (answer, place + further));
            assert_eq!(must(same_fragment(&k, &long, ROW + 2, &mut rng)), answer);
            long.truncate(2 * pairs);
        }
    }
}
