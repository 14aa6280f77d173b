//! Ujthanor from Rust: safe calls over `libujthanor.a`.
//!
//! Three layers. [`raw`] declares what the archive exports, as `include/ujthanor.h` does. [`calls`] has the same six calls over
//! slices. The functions here say them in Rust's own words: a [`Summary`], a [`Pass`], or a [`Refusal`] that carries the [`Answer`],
//! knows what its number means, and prints what to do.
//!
//! Every call ends on any bytes, and none asks anything of its caller beyond what safe Rust gives: what a call writes is lent by
//! `&mut`, so it overlaps nothing else and no other thread touches it. Any number of threads may call at once. No call allocates or
//! keeps anything; a check works in the table that it is lent.

mod answer;
pub mod calls;
pub mod raw;
mod refusal;

pub use answer::Answer;
pub use refusal::{Call, Number, Refusal};

/// Rises by one whenever a public layout changes: a summary's row, the worktable, the template file, or the numbers of the answers.
/// Store it with summaries that are kept, and make those anew that were stored with another. A new call and its own answers do not
/// raise it. The header has the same number. Layout 1 had rows of 20 entries, without counts; such a row is now refused.
pub const LAYOUT: u32 = 2;

/// Entries of a worktable, and of a summary's row.
pub const TABLE: usize = 5_376;
pub const ROW: usize = 21;

/// The largest budget; with it a check never answers 5.
pub const BUDGET: usize = 257;

/// Bytes of the longest template file; an output of so many is never too short for a split.
pub const LONGEST: usize = 1_560;

/// A passed check: the round that found nothing new, and the number of images at the front of the worktable.
#[derive(Clone, Copy, Debug, PartialEq, Eq)]
pub struct Pass {
    pub round: u64,
    pub images: u64,
}

/// A fragment's summary, as its row. Any row may be made into one: `join` and `net_depth` refuse what is no summary under their file.
/// A row that was made with another file may be a summary under this one too, but of nothing: keep summaries together with their file.
#[derive(Clone, Copy, Debug, PartialEq, Eq, PartialOrd, Ord, Hash)]
pub struct Summary(pub [u64; ROW]);

fn told<T>(call: Call, answer: u32, number: u64, value: T) -> Result<T, Refusal> {
    match answer {
        0 => Ok(value),
        _ => Err(Refusal::of(call, answer, number)),
    }
}

/// Is every page of the template set valid? `Ok` says so, however deep a page nests; of the refusals only
/// [`Answer::BrokenMismatch`] and [`Answer::BrokenInvalid`] say that some page is not.
///
/// A table that holds the file cannot be lent with it, since the check would overwrite what it reads:
///
/// ```compile_fail,E0502
/// let mut table = vec![0u64; ujthanor::TABLE];
/// let (_, file, _) = unsafe { table.align_to::<u8>() };
/// let _ = ujthanor::check(file, &mut table, ujthanor::BUDGET);
/// ```
pub fn check(file: &[u8], table: &mut [u64], budget: usize) -> Result<Pass, Refusal> {
    let r = calls::check(file, table, budget);
    let pass = Pass {
        round: r.number,
        images: r.images,
    };
    told(Call::Check, r.answer, r.number, pass)
}

/// Is the page valid: do its tags match, does the schema derive it, and has it exactly one outermost element? `Ok` says so.
/// [`Answer::TooDeep`] leaves it open: a valid page that nests deeper than 16 gets it, and no other refusal; the other refusals but
/// [`Answer::BadFile`] say that it is not.
pub fn page(file: &[u8], bytes: &[u8]) -> Result<(), Refusal> {
    let r = calls::page(file, bytes);
    told(Call::Page, r.answer, r.number, ())
}

/// The summary of a fragment.
pub fn fragment(file: &[u8], bytes: &[u8]) -> Result<Summary, Refusal> {
    let mut row = [0; ROW];
    let r = calls::fragment(file, bytes, &mut row);
    told(Call::Fragment, r.answer, r.number, Summary(row))
}

/// The summary of two fragments laid end to end.
pub fn join(file: &[u8], left: &Summary, right: &Summary) -> Result<Summary, Refusal> {
    let mut row = [0; ROW];
    let r = calls::join(file, &left.0, &right.0, &mut row);
    told(Call::Join, r.answer, r.number, Summary(row))
}

/// Starts minus ends of a summary.
pub fn net_depth(file: &[u8], summary: &Summary) -> Result<i32, Refusal> {
    let r = calls::net_depth(file, &summary.0);
    told(Call::NetDepth, r.answer, r.number, r.depth)
}

/// Writes the ordinary template file of a file of long rules (at most 12 symbols each) to the front of the output, and gives its length.
/// Every nonterminal of the long file keeps its number and derives the strings that it derived there.
///
/// A refusal changes no byte of the output, and bytes past the written file never change. An output of [`LONGEST`] bytes is never too
/// short:
///
/// ```
/// // one name, one nonterminal, one state, which is ending and takes any elements; the page is an element in an element
/// let mut long = vec![1, 1, 1, 0, 16, 0, 1, 0, 30, 0, 1, 0, 34, 0, 1, 0];
/// long.extend([0, 4, 0, 0, 32, 32, 255, 255, 255, 255, 255, 255, 255, 255]);
/// long.extend([0, 0, 0, 0, 0]);
/// let mut out = [0; ujthanor::LONGEST];
/// let length = ujthanor::split(&long, &mut out)?;
/// let mut table = vec![0; ujthanor::TABLE];
/// assert!(ujthanor::check(&out[..length], &mut table, ujthanor::BUDGET).is_ok());
/// # Ok::<(), ujthanor::Refusal>(())
/// ```
pub fn split(file: &[u8], out: &mut [u8]) -> Result<usize, Refusal> {
    let r = calls::split(file, out);
    told(Call::Split, r.answer, r.number, r.number as usize)
}
