//! The answer numbers.

pub const PASSED: u32 = 0;
pub const BROKEN_MISMATCH: u32 = 1;
pub const BROKEN_PAGE: u32 = 2;
pub const BROKEN_DEEP: u32 = 3;
pub const CROWDED: u32 = 4;
pub const BUDGET_USED: u32 = 5;
pub const NO_PAGE: u32 = 6;
pub const BAD_FILE: u32 = 7;
pub const BAD_BUDGET: u32 = 8;
pub const SMALL_TABLE: u32 = 9;
pub const NO_TAG: u32 = 10;
pub const MISMATCH: u32 = 11;
pub const TOO_DEEP: u32 = 12;
pub const UNMATCHED: u32 = 13;
/// Balanced, but not derived, or not exactly one outermost element.
pub const NOT_DERIVED: u32 = 14;
pub const NO_SUMMARY: u32 = 15;
/// Of splitting: the written file would be past the limits.
pub const TOO_MANY: u32 = 16;
/// Of the boundary alone: a row lent for writing is too short.
pub const SHORT_ROW: u32 = 17;
/// Of splitting, with the same number: the output is too short.
pub const SHORT_OUTPUT: u32 = 17;
