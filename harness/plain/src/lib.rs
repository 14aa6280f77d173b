//! The product's rules in plain Rust, written from the rules alone; docs/RULES.md has them.
//!
//! The six calls behave exactly as the library's C boundary does. `oracle` holds a second, slow
//! reading of the same rules, straight from their definitions, for the properties.

pub mod answer;
mod calls;
pub mod file;
pub mod grammar;
pub mod long;
pub mod oracle;
pub mod relation;
pub mod rounds;
pub mod summary;

pub use calls::{check, fragment, join, net_depth, page, split};

/// Entries of a row: one head, two of names, seventeen relations, one of their counts.
pub const ROW: usize = 21;
/// The most images that a worktable holds.
pub const IMAGES: usize = 256;
/// Entries of a worktable.
pub const TABLE: usize = ROW * IMAGES;
/// The most tags of a summary.
pub const DEEPEST: usize = 16;
/// The largest budget.
pub const BUDGET: usize = 257;

/// The most nonterminals of a file.
pub const NONTERMINALS: usize = 64;
/// The most template rules of a file.
pub const RULES: usize = 256;
/// Bytes of the longest template file, and of the longest file of long rules.
pub const LONGEST: usize = 1_560;
pub const LONGEST_LONG: usize = 4_120;

/// A row of the worktable, or a summary lent as one.
pub type Row = [u64; ROW];
