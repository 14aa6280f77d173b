//! The rules read from their definitions, with no thought of speed: words, derivations, trees.
//!
//! Nothing here uses the summaries, relations or rounds of the fast calls.

pub mod contexts;
pub mod derive;
pub mod reading;
pub mod short;
pub mod trees;
pub mod verdict;
pub mod words;
