//! Why a call gave no value: the answer, what its number means, and both in a sentence for whoever has to mend it.

use crate::Answer;
use std::fmt;

/// Which call was made.
#[derive(Clone, Copy, Debug, PartialEq, Eq, Hash)]
pub enum Call {
    Check,
    Page,
    Fragment,
    Join,
    NetDepth,
    Split,
}

impl Call {
    /// Every call.
    pub const ALL: [Call; 6] = {
        use Call::*;
        [Check, Page, Fragment, Join, NetDepth, Split]
    };
}

/// What the number beside an answer means. The same answer may have a place from one call and nothing from another.
#[derive(Clone, Copy, Debug, PartialEq, Eq, Hash)]
pub enum Number {
    /// The round of a check that met it first, counted from 1.
    Round(u64),
    /// The budget, all of which is used.
    Budget(u64),
    /// A byte's place, counted from 0: with [`Answer::BadFile`] in the template file or the file of long rules, else in the page or
    /// fragment.
    Place(u64),
    /// No number is meant.
    Nothing,
}

impl Number {
    fn of(call: Call, answer: Answer, number: u64) -> Number {
        use Answer::*;
        match answer {
            BrokenMismatch | BrokenInvalid | SetTooDeep | Crowded => Number::Round(number),
            BudgetUsed => Number::Budget(number),
            BadFile | NotATag => Number::Place(number),
            Mismatch | TooDeep if call != Call::Join => Number::Place(number),
            _ => Number::Nothing,
        }
    }
}

/// Why a call gave no value. Written out it is one sentence on what is wrong, and one on what to do.
#[derive(Clone, Copy, Debug, PartialEq, Eq, Hash)]
#[non_exhaustive]
pub struct Refusal {
    pub call: Call,
    pub answer: Answer,
    pub number: Number,
}

impl Refusal {
    /// The refusal that a call's two numbers tell, as [`crate::calls`] gives them.
    pub fn of(call: Call, answer: u32, number: u64) -> Refusal {
        let answer = Answer::of(answer);
        Refusal {
            call,
            answer,
            number: Number::of(call, answer, number),
        }
    }

    /// Where the byte at a place stands.
    fn place_in(&self) -> &'static str {
        match (self.answer, self.call) {
            (Answer::BadFile, Call::Split) => "file of long rules",
            (Answer::BadFile, _) => "template file",
            (_, Call::Page) => "page",
            _ => "fragment",
        }
    }

    /// What is wrong, up to the number.
    fn problem(&self) -> &'static str {
        use Answer::*;
        let join = self.call == Call::Join;
        match self.answer {
            BrokenMismatch => "Some page of this set closes an element with another's end tag",
            BrokenInvalid => "Some page of this set is not valid under the schema",
            SetTooDeep => "Undecided: some part of a page leaves more than 16 tags unmatched",
            Crowded => "Undecided: the set's parts come in more than 256 different forms",
            BudgetUsed => "Undecided: the check has used its budget",
            NoPage => "This set can produce no page at all",
            BadFile => "There is a fault",
            BadBudget => "The budget is not from 1 to 257",
            ShortTable => "The worktable has fewer than 5,376 entries",
            NotATag => "Something other than a tag of the file's elements stands",
            Mismatch if join => {
                "The second part's end tags do not match the first part's start tags"
            }
            Mismatch => "An element is closed with another's end tag",
            TooDeep if join => "The two parts together leave more than 16 tags unmatched",
            TooDeep => "More than 16 tags are unmatched",
            Unmatched => "Some of the page's tags are unmatched at its end",
            NotDerived => "The page's tags match, but the schema does not allow it, or it has not exactly one outermost element",
            NoSummary if join => "One of the two summaries does not fit this template file",
            NoSummary => "The summary does not fit this template file",
            TooMany => {
                "Split up, these rules need more than 64 nonterminals or more than 256 rules"
            }
            ShortRow if self.call == Call::Split => {
                "The output is shorter than the file to be written"
            }
            ShortRow => "The row for the summary has fewer than 21 entries",
            Unknown => "The library gave an answer that has no name here",
        }
    }

    /// What to do about it.
    fn remedy(&self) -> &'static str {
        use Answer::*;
        let join = self.call == Call::Join;
        match self.answer {
            BrokenMismatch => "Mend the templates",
            BrokenInvalid => "Mend the templates or the schema",
            SetTooDeep => "Split the template that opens or closes so many",
            Crowded => "Split the set, or use fewer schema states",
            BudgetUsed => "Check again with a budget of 257, which is always enough",
            NoPage => "Add a rule by which the start comes to an end",
            // Three faults have place 0: two of the file's length, and the number of names, which is the byte there.
            BadFile if self.number == Number::Place(0) => "Mend that byte, or the file's length",
            BadFile => "Mend what begins there",
            BadBudget => "Use 257",
            ShortTable => "Lend a longer one",
            NotATag => "Mend that byte, or give the file more elements",
            Mismatch if join => "Join parts that belong together",
            Mismatch => "Mend that tag, or the start tag that it meets",
            TooDeep if join => "Join in another order, or nest less",
            TooDeep => "Nest less, or read smaller parts and join them",
            Unmatched => "Add their partners, or take them away",
            NotDerived => "Mend the page or the schema",
            NoSummary => "Make it anew with this file",
            TooMany => "Shorten the longest rules, or make two sets of this one",
            ShortRow if self.call == Call::Split => "Lend 1,560 bytes, which are always enough",
            ShortRow => "Lend one of 21",
            Unknown => "Use wrapper and archive of one release",
        }
    }
}

impl fmt::Display for Refusal {
    fn fmt(&self, f: &mut fmt::Formatter<'_>) -> fmt::Result {
        f.write_str(self.problem())?;
        match self.number {
            Number::Round(round) => write!(f, " (first met in round {round})")?,
            Number::Budget(budget) => write!(f, " of {budget}")?,
            Number::Place(place) => write!(f, " at byte {place} of the {}", self.place_in())?,
            Number::Nothing => {}
        }
        write!(f, ". {}.", self.remedy())
    }
}

impl std::error::Error for Refusal {}
