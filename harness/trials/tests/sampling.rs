//! Pages of passing sets are valid, and broken sets have an invalid page.

use plain::file::{read, File};
use plain::oracle::contexts::contexts;
use plain::oracle::derive::valid;
use plain::oracle::trees::{useful, Cap, Strings};
use plain::oracle::words::{mismatched, nests_past_16};
use plain::TABLE;
use seeds::Rng;
use trials::gen::sample::Sampler;
use trials::gen::sets;
use trials::library::{check, page};

const CAP: Cap = Cap {
    strings: 400,
    tags: 60,
};

#[test]
fn every_page_of_a_passing_set_is_valid() {
    let mut rng = Rng::new(21);
    let mut table = vec![0; TABLE];
    let (mut shallow, mut deep, mut judged) = (0, 0, 0);
    for _ in 0..8_000 {
        let bytes = sets::any(&mut rng).bytes();
        if check(&bytes, &mut table, 257).0 != 0 {
            continue;
        }
        let file = read(&bytes).expect("sound");
        let sampler = Sampler::new(&file);
        for fuel in [0, 2, 5, 10, 20, 40, 80, 200] {
            let Some(text) = sampler.string(0, fuel, &mut rng) else {
                continue;
            };
            let told = match nests_past_16(&text) {
                None => (0, 0),
                Some(place) => (12, place as u64),
            };
            assert_eq!(page(&bytes, &text), told, "file {bytes:?}\npage {text:?}");
            if text.len() <= 40 {
                assert!(valid(&file, &text), "file {bytes:?}\npage {text:?}");
                judged += 1;
            }
            shallow += u32::from(told.0 == 0);
            deep += u32::from(told.0 == 12);
        }
    }
    println!("{shallow} read as 0, {deep} as 12, {judged} judged by derivation");
    assert!(shallow > 10_000 && deep > 300 && judged > 10_000);
}

/// Strings of all trees up to a height, none past the cap.
fn strings(file: &File, height: u64) -> Option<Strings> {
    (0..height).try_fold(Strings::none(file), |strings, _| strings.higher(file, CAP))
}

/// A page that is not valid, made around a mismatched string of some useful nonterminal.
fn page_around_a_mismatch(file: &File, strings: &Strings) -> Option<Vec<u8>> {
    let contexts = contexts(file, CAP);
    let useful = useful(file);
    let of = |n: usize| strings.0[n].iter().find(|word| mismatched(word));
    let (n, word) = (0..useful.len())
        .filter(|&n| useful[n])
        .find_map(|n| Some((n, of(n)?)))?;
    let (left, right) = contexts[n].as_ref()?;
    Some([left, word, right].map(|part| &part[..]).concat())
}

/// An invalid page of a set with answer 1 or 2 in this round, and whether the round is the first
/// with such an event; none where there are too many strings to look at.
fn witness(file: &File, answer: u32, round: u64) -> Option<(Option<Vec<u8>>, bool)> {
    let before = strings(file, round - 1)?;
    let now = before.higher(file, CAP)?;
    let useful = useful(file);
    let bad = |strings: &Strings| strings.0[0].iter().find(|page| !valid(file, page)).cloned();
    let clash = |strings: &Strings| {
        (0..useful.len()).any(|n| useful[n] && strings.0[n].iter().any(|word| mismatched(word)))
    };
    let first = bad(&before).is_none() && !clash(&before);
    match answer {
        1 => Some((page_around_a_mismatch(file, &now), first)),
        _ => Some((bad(&now), first && !clash(&now))),
    }
}

#[test]
fn a_broken_set_has_an_invalid_page() {
    let mut rng = Rng::new(22);
    let mut table = vec![0; TABLE];
    let mut found = [0u32; 3];
    let mut late = 0;
    for turn in 0..16_000 {
        let draft = if turn % 2 == 0 {
            sets::any(&mut rng)
        } else {
            sets::small(&mut rng)
        };
        let bytes = draft.bytes();
        let (answer, round, _) = check(&bytes, &mut table, 257);
        if answer != 1 && answer != 2 {
            continue;
        }
        let file = read(&bytes).expect("sound");
        let Some((text, first)) = witness(&file, answer, round) else {
            continue;
        };
        assert!(first, "not the first round with the event: {bytes:?}");
        let text = text.unwrap_or_else(|| panic!("no invalid page: {bytes:?}"));
        assert!(!valid(&file, &text), "file {bytes:?}\npage {text:?}");
        assert_ne!(page(&bytes, &text).0, 0, "file {bytes:?}\npage {text:?}");
        found[answer as usize] += 1;
        late += u32::from(round > 2);
    }
    println!("{found:?} found, {late} of them after round 2");
    assert!(
        found[1] > 300 && found[2] > 1_000 && late > 300,
        "{found:?} {late}"
    );
}
