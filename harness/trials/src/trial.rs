//! One round of the quick and the long run: a file, and everything that can be asked of it; then files of long rules.

use crate::gen::rows::{self, Under};
use crate::gen::sample::Sampler;
use crate::gen::{damage, long, pages, sets, sizes};
use crate::same::{
    same_check, same_fragment, same_join, same_net_depth, same_page, same_split, Difference,
};
use crate::tally::{Tally, CHECK, FRAGMENT, JOIN, NET_DEPTH, PAGE, SPLIT};
use plain::{LONGEST, ROW};
use seeds::Rng;

/// How many comparisons a round makes of each kind (fewer of a file that is not sound).
pub struct Sizes {
    pub checks: usize,
    pub pages: usize,
    pub joins: usize,
    pub splits: usize,
}

/// Of the quick run, which looks at many files.
pub const QUICK: Sizes = Sizes {
    checks: 2,
    pages: 10,
    joins: 10,
    splits: 2,
};
/// Of the long run, which also looks longer at each.
pub const LONG: Sizes = Sizes {
    checks: 4,
    pages: 24,
    joins: 24,
    splits: 4,
};

/// A file and comparisons over it, then some splits, noted in the tally up to the first difference.
pub fn round(sizes: &Sizes, rng: &mut Rng, tally: &mut Tally) -> Result<(), Difference> {
    asked(sizes, rng, tally)?;
    (0..sizes.splits).try_for_each(|_| split(rng, tally))
}

/// A file, sound or not, and comparisons over it.
fn asked(sizes: &Sizes, rng: &mut Rng, tally: &mut Tally) -> Result<(), Difference> {
    let draft = sets::any(rng);
    if rng.once_in(5) {
        let file = damage::any(&draft, rng);
        return unsound(&file, rng, tally);
    }
    if rng.once_in(50) {
        let length = rng.below(60);
        let file = rng.bytes(length);
        return unsound(&file, rng, tally);
    }
    sound(&draft.bytes(), sizes, rng, tally)
}

/// All calls once, over a file that may be damaged.
fn unsound(file: &[u8], rng: &mut Rng, tally: &mut Tally) -> Result<(), Difference> {
    tally.note(
        CHECK,
        same_check(file, sizes::table(rng), sizes::budget(rng), rng)?,
    );
    let bytes = pages::any(2, None, rng);
    tally.note(PAGE, same_page(file, &bytes)?);
    tally.note(FRAGMENT, same_fragment(file, &bytes, sizes::row(rng), rng)?);
    let (left, right) = (rng.entries(ROW), vec![0; ROW]);
    tally.note(JOIN, same_join(file, &left, &right, sizes::row(rng), rng)?);
    tally.note(NET_DEPTH, same_net_depth(file, &right)?);
    Ok(())
}

/// All calls many times, over a sound file.
fn sound(file: &[u8], sizes: &Sizes, rng: &mut Rng, tally: &mut Tally) -> Result<(), Difference> {
    let read =
        plain::file::read(file).map_err(|place| format!("not sound at {place}: {file:?}"))?;
    let sampler = Sampler::new(&read);
    let under = Under {
        file,
        names: read.names,
        states: read.states,
    };
    for _ in 0..rng.within(1, sizes.checks) {
        tally.note(
            CHECK,
            same_check(file, sizes::table(rng), sizes::budget(rng), rng)?,
        );
    }
    for _ in 0..sizes.pages {
        let bytes = pages::any(read.names, Some(&sampler), rng);
        tally.note(PAGE, same_page(file, &bytes)?);
        tally.note(FRAGMENT, same_fragment(file, &bytes, sizes::row(rng), rng)?);
    }
    for _ in 0..sizes.joins {
        joined(under, rng, tally)?;
    }
    Ok(())
}

/// Two rows joined, and the net depth of one of them.
fn joined(under: Under, rng: &mut Rng, tally: &mut Tally) -> Result<(), Difference> {
    let left = rows::any(under, rng);
    let right = if rng.once_in(2) {
        rows::answering(under, &left, rng)
    } else {
        rows::any(under, rng)
    };
    tally.note(
        JOIN,
        same_join(under.file, &left, &right, sizes::row(rng), rng)?,
    );
    let one = if rng.once_in(2) { left } else { right };
    tally.note(NET_DEPTH, same_net_depth(under.file, &one)?);
    Ok(())
}

/// A file of long rules, or what is damaged or none, split by both; then what was written is checked by both.
fn split(rng: &mut Rng, tally: &mut Tally) -> Result<(), Difference> {
    let draft = long::any(rng);
    let file = match rng.below(32) {
        0..=6 => damage::any(&draft, rng),
        7 => sets::any(rng).bytes(),
        _ => draft.bytes(),
    };
    let needed = plain::split(&file, &mut [0; LONGEST]).1 as usize;
    let room = sizes::output(needed, rng);
    let (answer, written) = same_split(&file, &rng.bytes(room))?;
    tally.note(SPLIT, answer);
    if answer == 0 {
        plain::file::read(&written).map_err(|place| format!("not sound at {place}: {file:?}"))?;
        let checked = same_check(&written, sizes::table(rng), sizes::budget(rng), rng)?;
        tally.note(CHECK, checked);
    }
    Ok(())
}
