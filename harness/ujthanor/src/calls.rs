//! The six calls over slices: the answer is a number of the rules (docs/RULES.md, sections 9 and 13), a summary a row of 21 entries.
//!
//! No call asks anything of its caller that safe Rust does not give. A slice is a pointer and a length; what a call writes is lent by
//! `&mut`, so nothing else that it is lent overlaps it and no other thread touches it meanwhile.

use crate::raw;

/// A check's reply.
#[derive(Clone, Copy, Debug, PartialEq, Eq)]
pub struct Check {
    pub answer: u32,
    pub number: u64,
    pub images: u64,
}

/// The reply of a page, fragment, join or split.
#[derive(Clone, Copy, Debug, PartialEq, Eq)]
pub struct Reply {
    pub answer: u32,
    pub number: u64,
}

/// The reply of a net depth.
#[derive(Clone, Copy, Debug, PartialEq, Eq)]
pub struct Depth {
    pub answer: u32,
    pub number: u64,
    pub depth: i32,
}

/// Is every page of the template set valid? The table needs 5,376 entries; what it holds before does not matter.
///
/// A file inside the table would be overwritten while it is read, and a broken set could pass. The borrow rules refuse it:
///
/// ```compile_fail,E0502
/// let mut table = vec![0u64; ujthanor::TABLE];
/// let (_, file, _) = unsafe { table.align_to::<u8>() };
/// ujthanor::calls::check(file, &mut table, ujthanor::BUDGET);
/// ```
///
/// With a copy of these bytes it is a call like any other:
///
/// ```
/// let mut table = vec![0u64; ujthanor::TABLE];
/// let (_, file, _) = unsafe { table.align_to::<u8>() };
/// let file = file[..45].to_vec();
/// assert_eq!(ujthanor::calls::check(&file, &mut table, ujthanor::BUDGET).answer, 7);
/// ```
pub fn check(file: &[u8], table: &mut [u64], budget: usize) -> Check {
    let (mut number, mut images) = (0, 0);
    // SAFETY: each pointer comes with the length of its own slice, what is written is lent by `&mut`, and the numbers are locals.
    let answer = unsafe {
        raw::ujthanor_check(
            file.as_ptr(),
            file.len(),
            table.as_mut_ptr(),
            table.len(),
            budget,
            &mut number,
            &mut images,
        )
    };
    Check {
        answer,
        number,
        images,
    }
}

/// Is the page valid? A valid page that nests deeper than 16 is answered with 12, and no other valid page is refused.
pub fn page(file: &[u8], bytes: &[u8]) -> Reply {
    let mut number = 0;
    // SAFETY: as in `check`.
    let answer = unsafe {
        raw::ujthanor_page(
            file.as_ptr(),
            file.len(),
            bytes.as_ptr(),
            bytes.len(),
            &mut number,
        )
    };
    Reply { answer, number }
}

/// The summary of a fragment, in the first 21 entries of the row. A row of fewer is refused with 17 and not written; entries past the
/// 21st never change.
pub fn fragment(file: &[u8], bytes: &[u8], row: &mut [u64]) -> Reply {
    let mut number = 0;
    // SAFETY: as in `check`.
    let answer = unsafe {
        raw::ujthanor_fragment(
            file.as_ptr(),
            file.len(),
            bytes.as_ptr(),
            bytes.len(),
            row.as_mut_ptr(),
            row.len(),
            &mut number,
        )
    };
    Reply { answer, number }
}

/// The summary of two fragments laid end to end, in the row as by [`fragment`]. A left or right that is no summary's row is refused
/// with 15. `left` and `right` may be one row, but neither can be the row that is written:
///
/// ```compile_fail,E0502
/// let (file, right) = ([0u8; 45], [0u64; ujthanor::ROW]);
/// let mut row = [0u64; ujthanor::ROW];
/// ujthanor::calls::join(&file, &row, &right, &mut row);
/// ```
pub fn join(file: &[u8], left: &[u64], right: &[u64], row: &mut [u64]) -> Reply {
    let mut number = 0;
    // SAFETY: as in `check`.
    let answer = unsafe {
        raw::ujthanor_join(
            file.as_ptr(),
            file.len(),
            left.as_ptr(),
            left.len(),
            right.as_ptr(),
            right.len(),
            row.as_mut_ptr(),
            row.len(),
            &mut number,
        )
    };
    Reply { answer, number }
}

/// Starts minus ends of a summary's row.
pub fn net_depth(file: &[u8], row: &[u64]) -> Depth {
    let (mut number, mut depth) = (0, 0);
    // SAFETY: as in `check`.
    let answer = unsafe {
        raw::ujthanor_net_depth(
            file.as_ptr(),
            file.len(),
            row.as_ptr(),
            row.len(),
            &mut number,
            &mut depth,
        )
    };
    Depth {
        answer,
        number,
        depth,
    }
}

/// The ordinary template file of a file of long rules, at the front of the output; the number is then how many bytes it has. An output
/// of 1,560 bytes is always long enough. A refusal writes nothing, and bytes past the written file never change.
///
/// No file is split in its own place:
///
/// ```compile_fail,E0502
/// let mut bytes = [0u8; 4_120];
/// ujthanor::calls::split(&bytes, &mut bytes);
/// ```
pub fn split(file: &[u8], out: &mut [u8]) -> Reply {
    let mut number = 0;
    // SAFETY: as in `check`.
    let answer = unsafe {
        raw::ujthanor_split(
            file.as_ptr(),
            file.len(),
            out.as_mut_ptr(),
            out.len(),
            &mut number,
        )
    };
    Reply { answer, number }
}
