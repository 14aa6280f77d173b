//! One input given to the library and to the independent implementation. Whole replies, rows and
//! tables must agree; what a call must leave alone is compared with what was lent.

use crate::library;
use plain::{ROW, TABLE};
use seeds::Rng;
use std::fmt::Debug;

/// What differs, with the whole input.
pub type Difference = String;

/// The answer on which both sides agree.
pub type Agreed = Result<u32, Difference>;

fn differ(
    what: &str,
    file: &[u8],
    input: &dyn Debug,
    library: &dyn Debug,
    plain: &dyn Debug,
) -> Agreed {
    Err(format!(
        "{what}\nfile: {file:?}\ninput: {input:?}\nlibrary: {library:?}\nplain: {plain:?}"
    ))
}

/// The tables are lent full of garbage. Only answers 0 to 5 may write, and only as many entries as a worktable has.
pub fn same_check(file: &[u8], table_length: usize, budget: usize, rng: &mut Rng) -> Agreed {
    let lent = rng.entries(table_length);
    let (mut one, mut two) = (lent.clone(), lent.clone());
    let library = library::check(file, &mut one, budget);
    let plain = plain::check(file, &mut two, budget);
    let input = (table_length, budget);
    if library != plain {
        return differ("check", file, &input, &library, &plain);
    }
    if one != two {
        return differ("check: table", file, &input, &one, &two);
    }
    let kept = if library.0 <= 5 { TABLE } else { 0 };
    if one[kept..] != lent[kept..] {
        return differ(
            "check: entries to be kept",
            file,
            &input,
            &one[kept..].to_vec(),
            &lent[kept..].to_vec(),
        );
    }
    Ok(library.0)
}

pub fn same_page(file: &[u8], bytes: &[u8]) -> Agreed {
    let library = library::page(file, bytes);
    let plain = plain::page(file, bytes);
    if library != plain {
        return differ("page", file, &bytes, &library, &plain);
    }
    Ok(library.0)
}

pub fn same_fragment(file: &[u8], bytes: &[u8], row_length: usize, rng: &mut Rng) -> Agreed {
    let lent = rng.entries(row_length);
    let (mut one, mut two) = (lent.clone(), lent.clone());
    let library = library::fragment(file, bytes, &mut one);
    let plain = plain::fragment(file, bytes, &mut two);
    let input = (bytes, row_length);
    if (library, &one) != (plain, &two) {
        return differ("fragment", file, &input, &(library, &one), &(plain, &two));
    }
    written(library.0, &lent, &one).map_or(Ok(library.0), |what| {
        differ(what, file, &input, &one, &lent)
    })
}

pub fn same_join(
    file: &[u8],
    left: &[u64],
    right: &[u64],
    row_length: usize,
    rng: &mut Rng,
) -> Agreed {
    let lent = rng.entries(row_length);
    let (mut one, mut two) = (lent.clone(), lent.clone());
    let library = library::join(file, left, right, &mut one);
    let plain = plain::join(file, left, right, &mut two);
    let input = (left, right, row_length);
    if (library, &one) != (plain, &two) {
        return differ("join", file, &input, &(library, &one), &(plain, &two));
    }
    written(library.0, &lent, &one).map_or(Ok(library.0), |what| {
        differ(what, file, &input, &one, &lent)
    })
}

pub fn same_net_depth(file: &[u8], row: &[u64]) -> Agreed {
    let library = library::net_depth(file, row);
    let plain = plain::net_depth(file, row);
    if library != plain {
        return differ("net depth", file, &row, &library, &plain);
    }
    Ok(library.0)
}

/// The output is lent as it is given. Only answer 0 may write, and only the file; gives that file too.
pub fn same_split(file: &[u8], lent: &[u8]) -> Result<(u32, Vec<u8>), Difference> {
    let (mut one, mut two) = (lent.to_vec(), lent.to_vec());
    let library = library::split(file, &mut one);
    let plain = plain::split(file, &mut two);
    let mut fault = None;
    if (library, &one) != (plain, &two) {
        fault = Some("split");
    }
    let length = if library.0 == 0 {
        library.1 as usize
    } else {
        0
    };
    if one.get(length..) != lent.get(length..) {
        fault = fault.or(Some("split: bytes to be kept"));
    }
    let Some(what) = fault else {
        one.truncate(length);
        return Ok((library.0, one));
    };
    let (library, plain) = ((library, &one), (plain, &two));
    differ(what, file, &lent, &library, &plain).map(|answer| (answer, Vec::new()))
}

/// What is wrong with a row lent for writing, if anything is.
fn written(answer: u32, lent: &[u64], row: &[u64]) -> Option<&'static str> {
    let later = ROW.min(lent.len());
    if answer == 17 {
        return (row != lent).then_some("a short row was written");
    }
    if answer != 0 && row[..later].iter().any(|&entry| entry != 0) {
        return Some("a refusal's summary is not all zeros");
    }
    (row[later..] != lent[later..]).then_some("an entry past the row changed")
}
