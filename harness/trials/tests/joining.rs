//! Joining parts against reading the whole, and reading against the definitions.

use plain::file::read;
use plain::oracle::derive::Derivations;
use plain::oracle::reading;
use plain::oracle::words::outermost;
use plain::{Row, ROW};
use seeds::Rng;
use trials::gen::sample::Sampler;
use trials::gen::{pages, sets};
use trials::library::{fragment, join, page};

/// What a part or a join comes to: its row, or 11, or 12.
type Outcome = Result<Row, u32>;

fn read_part(file: &[u8], bytes: &[u8]) -> Outcome {
    let mut row = [9; ROW];
    match fragment(file, bytes, &mut row).0 {
        0 => Ok(row),
        answer => Err(answer),
    }
}

fn join_parts(file: &[u8], left: Outcome, right: Outcome) -> Outcome {
    // A mismatched part makes the whole mismatched, whatever the other is.
    match (left, right) {
        (Err(12), _) | (_, Err(12)) => Err(12),
        (Err(other), _) | (_, Err(other)) => Err(other),
        (Ok(left), Ok(right)) => {
            let mut row = [9; ROW];
            match join(file, &left, &right, &mut row).0 {
                0 => Ok(row),
                answer => Err(answer),
            }
        }
    }
}

/// A fragment in 2 to 5 parts, some of them perhaps empty.
fn parts<'a>(bytes: &'a [u8], rng: &mut Rng) -> Vec<&'a [u8]> {
    let mut cuts: Vec<usize> = (0..rng.within(1, 4))
        .map(|_| rng.within(0, bytes.len()))
        .collect();
    cuts.extend([0, bytes.len()]);
    cuts.sort();
    cuts.windows(2).map(|cut| &bytes[cut[0]..cut[1]]).collect()
}

#[test]
fn parts_joined_in_any_order_are_the_whole() {
    let mut rng = Rng::new(11);
    let (mut rows, mut mismatches, mut deep) = (0, 0, 0);
    for _ in 0..20_000 {
        let file = sets::any(&mut rng).bytes();
        for _ in 0..10 {
            let bytes = pages::walk(file[0], &mut rng);
            let whole = read_part(&file, &bytes);
            let parts: Vec<Outcome> = parts(&bytes, &mut rng)
                .iter()
                .map(|part| read_part(&file, part))
                .collect();
            let left = parts.iter().copied().reduce(|l, r| join_parts(&file, l, r));
            let right = parts
                .iter()
                .rev()
                .copied()
                .reduce(|r, l| join_parts(&file, l, r));
            for joined in [left, right].map(|joined| joined.expect("two parts or more")) {
                if whole == Err(12) || joined == Err(12) {
                    deep += 1;
                    continue;
                }
                assert_eq!(whole, joined, "file {file:?}\nfragment {bytes:?}");
                match whole {
                    Ok(_) => rows += 1,
                    Err(_) => mismatches += 1,
                }
            }
        }
    }
    println!("{rows} rows, {mismatches} mismatches, {deep} too deep");
    assert!(rows > 100_000 && mismatches > 10_000 && deep > 1_000);
}

#[test]
fn reading_is_what_the_definitions_say() {
    let mut rng = Rng::new(12);
    let mut seen = [0u32; 16];
    // Pages that are balanced and derived, by their outermost elements: none, one, two, more.
    let mut derived = [0u32; 4];
    for _ in 0..6_000 {
        let bytes = sets::any(&mut rng).bytes();
        let file = read(&bytes).expect("sound");
        let sampler = Sampler::new(&file);
        for _ in 0..4 {
            let text = pages::any(file.names, Some(&sampler), &mut rng);
            if text.len() > 36 {
                continue;
            }
            let reply = page(&bytes, &text);
            assert_eq!(
                reply,
                reading::page(&file, &text),
                "file {bytes:?}\npage {text:?}"
            );
            let mut row = [9; ROW];
            let (answer, number) = fragment(&bytes, &text, &mut row);
            let told = reading::fragment(&file, &text);
            assert_eq!(
                (answer, number, row),
                told,
                "file {bytes:?}\nfragment {text:?}"
            );
            seen[reply.0 as usize] += 1;
            if reply.0 == 0 || reply.0 == 14 {
                let by_schema = Derivations::new(&file, &text).part(0, 0, text.len(), None);
                derived[outermost(&text).len().min(3)] += u32::from(by_schema);
            }
        }
    }
    println!("{seen:?}, derived {derived:?}");
    assert!(derived.iter().all(|&times| times >= 200), "{derived:?}");
    for answer in [0, 10, 11, 12, 13, 14] {
        assert!(seen[answer] >= 200, "{answer}: {seen:?}");
    }
}
