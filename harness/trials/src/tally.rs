//! How many comparisons of each kind were made, and how often each answer was seen.

use std::fmt;

/// The calls, in the order of the tally.
pub const CALLS: [&str; 6] = ["check", "page", "fragment", "join", "net depth", "split"];
pub const CHECK: usize = 0;
pub const PAGE: usize = 1;
pub const FRAGMENT: usize = 2;
pub const JOIN: usize = 3;
pub const NET_DEPTH: usize = 4;
pub const SPLIT: usize = 5;

/// How many answers can be given: 0 to 17.
pub const ANSWERS: u32 = 18;

#[derive(Clone, Default)]
pub struct Tally {
    seen: [[u64; ANSWERS as usize]; CALLS.len()],
}

impl Tally {
    pub fn note(&mut self, call: usize, answer: u32) {
        self.seen[call][answer as usize] += 1;
    }

    /// How often a call gave an answer.
    pub fn seen(&self, call: usize, answer: u32) -> u64 {
        self.seen[call][answer as usize]
    }

    /// How often any call gave an answer.
    pub fn answer(&self, answer: u32) -> u64 {
        (0..CALLS.len()).map(|call| self.seen(call, answer)).sum()
    }

    /// How many comparisons of a call were made.
    pub fn call(&self, call: usize) -> u64 {
        self.seen[call].iter().sum()
    }

    pub fn total(&self) -> u64 {
        (0..CALLS.len()).map(|call| self.call(call)).sum()
    }
}

impl fmt::Display for Tally {
    fn fmt(&self, f: &mut fmt::Formatter) -> fmt::Result {
        write!(f, "{:>10} {:>12}", "answer", "all")?;
        for name in CALLS {
            write!(f, " {name:>12}")?;
        }
        for answer in 0..ANSWERS {
            write!(f, "\n{answer:>10} {:>12}", self.answer(answer))?;
            for call in 0..CALLS.len() {
                write!(f, " {:>12}", self.seen(call, answer))?;
            }
        }
        write!(f, "\n{:>10} {:>12}", "all", self.total())?;
        for call in 0..CALLS.len() {
            write!(f, " {:>12}", self.call(call))?;
        }
        Ok(())
    }
}
