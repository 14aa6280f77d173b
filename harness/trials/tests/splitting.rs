//! Files of long rules split: named cases on the library itself, small ranges from end to end, and the strings of both grammars.

use plain::file::{read, read_long, rule};
use plain::oracle::short::short;
use plain::oracle::trees::Cap;
use plain::{LONGEST, LONGEST_LONG, TABLE};
use seeds::Rng;
use std::collections::BTreeSet;
use trials::gen::draft::{end, lay, nonterminal, start, LongDraft};
use trials::gen::{damage, long, named, sets};
use trials::library::split;
use trials::same::{same_check, same_split};

/// What both sides answer, and what they write into an output full of some byte.
fn both(file: &[u8], room: usize) -> (u32, Vec<u8>) {
    same_split(file, &vec![9; room]).unwrap_or_else(|difference| panic!("{difference}"))
}

/// The place at which the library finds a fault, if it finds one.
fn place(file: &[u8]) -> Option<u64> {
    let (answer, place) = split(file, &mut []);
    (answer == 7).then_some(place)
}

/// The template rules of what the library writes.
fn rules(draft: &LongDraft) -> Vec<[u8; 4]> {
    let (answer, out) = both(&draft.bytes(), LONGEST);
    assert_eq!(answer, 0);
    read(&out).expect("sound").rules.to_vec()
}

/// File K in long form, and beside its rules of two symbols others of none, one, three and twelve.
fn long_k() -> LongDraft {
    let mut draft = long::widened(&named::k());
    let (opening, middle) = (nonterminal(1), nonterminal(2));
    draft.rules.extend([
        rule(0, &[start(0), middle, end(0)]),
        rule(0, &[opening]),
        rule(1, &[]),
        rule(2, &[middle; 12]),
    ]);
    draft
}

/// Two long rules of one left side.
fn two_rules(one: &[u8], two: &[u8]) -> LongDraft {
    LongDraft {
        names: 2,
        nonterminals: 1,
        states: 1,
        rules: vec![rule(0, one), rule(0, two)],
        schema: vec![],
        ending: vec![],
    }
}

#[test]
fn the_orders_of_numbers_and_of_rules() {
    let example = two_rules(&[0, 32, 1], &[1, 33, 0, 32]);
    assert_eq!(
        rules(&example).concat(),
        [0, 2, 0, 65, 0, 2, 1, 66, 1, 2, 32, 1, 2, 2, 33, 67, 3, 2, 0, 32]
    );
    // By length the first comes first, by its symbols the second.
    let crossed = two_rules(&[1, 33, 0], &[0, 32, 0, 32]);
    assert_eq!(
        rules(&crossed).concat(),
        [0, 2, 0, 66, 0, 2, 1, 65, 1, 2, 33, 0, 2, 2, 32, 67, 3, 2, 0, 32]
    );
    let before_a_short_one = two_rules(&[1, 33], &[0, 32, 1]);
    assert_eq!(
        rules(&before_a_short_one).concat(),
        [0, 2, 0, 65, 0, 2, 1, 33, 1, 2, 32, 1]
    );
}

#[test]
fn each_symbol_counts_for_the_ascent() {
    for at in 0..12 {
        let (one, mut two) = ([0; 12], [0; 12]);
        two[at] = 1;
        let file = two_rules(&one, &two).bytes();
        assert_eq!(both(&file, LONGEST).0, 0, "symbol {at}");
        for (one, two) in [(two, one), (one, one)] {
            let falling = lay(&two_rules(&one, &two));
            assert_eq!(both(&falling, LONGEST).0, 7);
            assert_eq!(place(&falling), Some(30), "symbol {at}");
        }
    }
}

#[test]
fn ordinary_files_in_long_form_are_themselves() {
    let mut rng = Rng::new(41);
    for _ in 0..4_000 {
        let draft = sets::any(&mut rng);
        let (answer, out) = both(&long::widened(&draft).bytes(), LONGEST);
        assert_eq!((answer, out), (0, draft.bytes()));
    }
}

#[test]
fn each_byte_of_a_long_file_with_each_value() {
    let file = long_k().bytes();
    let mut places = BTreeSet::new();
    for at in 0..file.len() {
        for value in 0..=255 {
            let mut file = file.clone();
            file[at] = value;
            both(&file, LONGEST + 1);
            places.extend(place(&file));
        }
    }
    // The first bytes of the fields, no second byte of a 16-bit number.
    let fields = (0..5)
        .chain([6, 8, 10, 12, 14])
        .chain(16..file.len() as u64);
    assert_eq!(places, fields.collect());
}

#[test]
fn each_two_bytes_of_a_long_file_with_some_values() {
    let file = long_k().bytes();
    let values = [0, 1, 2, 4, 12, 13, 70, 255];
    for one in 0..file.len() {
        for two in 0..one {
            for pair in 0..values.len() * values.len() {
                let mut file = file.clone();
                file[one] = values[pair % values.len()];
                file[two] = values[pair / values.len()];
                both(&file, 140);
            }
        }
    }
}

#[test]
fn each_length_of_a_long_file() {
    let file = long_k().bytes();
    for length in 0..file.len() + 20 {
        let mut cut = file.clone();
        cut.resize(length, 0);
        both(&cut, LONGEST);
        assert_eq!(place(&cut).is_none(), length == file.len());
    }
}

#[test]
fn each_length_of_an_output() {
    let mut rng = Rng::new(42);
    let mut seen = BTreeSet::new();
    for _ in 0..40 {
        let file = long::any(&mut rng).bytes();
        let (answer, written) = both(&file, LONGEST);
        seen.insert(answer);
        for room in (0..=LONGEST).chain([LONGEST + 1, LONGEST_LONG]) {
            let short = answer == 0 && room < written.len();
            let told = if short { 17 } else { answer };
            assert_eq!(both(&file, room).0, told, "room {room}, file {file:?}");
        }
    }
    assert_eq!(seen, BTreeSet::from([0, 16]));
}

#[test]
fn both_limits_are_met_from_both_sides() {
    let mut rng = Rng::new(43);
    let mut seen = BTreeSet::new();
    for _ in 0..4_000 {
        let file = long::any(&mut rng).bytes();
        let long = read_long(&file).expect("sound");
        let past = long
            .rules
            .iter()
            .map(|rule| rule[1].saturating_sub(2) as usize);
        let past: usize = past.sum();
        let nonterminals = long.nonterminals as usize + past;
        let rules = long.rules.len() + past;
        let (answer, out) = both(&file, LONGEST);
        assert_eq!(answer == 16, nonterminals > 64 || rules > 256, "{file:?}");
        if answer == 0 {
            assert_eq!(
                (
                    out[1] as usize,
                    u16::from_le_bytes([out[6], out[7]]) as usize
                ),
                (nonterminals, rules)
            );
        }
        seen.insert((nonterminals.clamp(63, 66), rules.clamp(255, 258)));
    }
    for pair in [(64, 256), (64, 257), (65, 256), (64, 255), (63, 256)] {
        assert!(seen.contains(&pair), "{pair:?}: {seen:?}");
    }
}

#[test]
fn faults_of_every_field_of_large_long_files() {
    let mut rng = Rng::new(44);
    let mut places = BTreeSet::new();
    for _ in 0..20_000 {
        let draft = long::any(&mut rng);
        let file = damage::any(&draft, &mut rng);
        both(&file, LONGEST);
        places.extend(place(&file));
    }
    let contents = [0, 1, 2, 3, 4, 6, 8, 10, 12, 14];
    assert!(
        contents.iter().all(|place| places.contains(place)),
        "{places:?}"
    );
    assert!(places.range(16..3_600).count() > 1_000, "{}", places.len());
    assert!(places.range(3_600..).count() > 50, "{}", places.len());
}

#[test]
fn the_longest_long_file() {
    let mut rng = Rng::new(45);
    let mut longest = [0; 2];
    for _ in 0..3_000 {
        let file = long::any(&mut rng).bytes();
        if file.len() != LONGEST_LONG {
            continue;
        }
        let (answer, out) = both(&file, LONGEST);
        longest[usize::from(answer == 0)] += 1;
        assert!(answer == 16 || out.len() == LONGEST);
        let more = [&file[..], &[8]].concat();
        assert_eq!(both(&more, LONGEST).0, 7);
        assert_eq!(place(&more), Some(0));
    }
    assert!(longest.iter().all(|&times| times >= 20), "{longest:?}");
}

const CAP: Cap = Cap {
    strings: 600,
    tags: 8,
};

#[test]
fn old_nonterminals_keep_their_strings() {
    let mut rng = Rng::new(46);
    let (mut compared, mut strings) = (0, 0);
    for _ in 0..3_000 {
        let bytes = long::small(&mut rng).bytes();
        let (answer, out) = both(&bytes, LONGEST);
        let long = read_long(&bytes).expect("sound");
        if answer != 0 || long.rules.iter().all(|rule| rule[1] <= 2) {
            continue;
        }
        let file = read(&out).expect("sound");
        let (Some(before), Some(after)) = (short(&long, CAP), short(&file, CAP)) else {
            continue;
        };
        assert_eq!(before, after[..before.len()], "{bytes:?}");
        compared += 1;
        strings += before.iter().map(BTreeSet::len).sum::<usize>();
    }
    println!("{compared} files, {strings} strings");
    assert!(compared > 300 && strings > 10_000, "{compared} {strings}");
}

#[test]
fn written_files_are_checked_alike() {
    let mut rng = Rng::new(47);
    let mut seen = [0u32; 7];
    for _ in 0..3_000 {
        let bytes = long::any(&mut rng).bytes();
        let (answer, out) = both(&bytes, LONGEST);
        if answer == 0 {
            let checked = same_check(&out, TABLE + 1, 257, &mut rng);
            seen[checked.unwrap_or_else(|difference| panic!("{difference}")) as usize] += 1;
        }
    }
    println!("{seen:?}");
    assert!(
        [0, 1, 2, 3, 4, 6].iter().all(|&a| seen[a] >= 20),
        "{seen:?}"
    );
}
