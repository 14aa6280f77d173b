//! The library against the independent implementation, and the properties of both.
//!
//! `gen` makes inputs from a seed, `same` gives one input to both sides and compares whole replies,
//! rows and tables, `trial` is one round of the quick and the long run.

pub mod gen;
pub mod library;
pub mod same;
pub mod tally;
pub mod trial;
