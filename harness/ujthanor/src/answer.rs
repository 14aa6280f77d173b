//! The answer numbers by name (docs/RULES.md, sections 9 and 13).

/// What a call answers other than 0. `Unknown` is for a number that this list has no name for; no call gives one.
#[derive(Clone, Copy, Debug, PartialEq, Eq, Hash)]
#[repr(u32)]
pub enum Answer {
    BrokenMismatch = 1,
    BrokenInvalid = 2,
    /// Undecided: some part leaves more than 16 tags unmatched. Nine ends and eight starts do; a balanced part 20 deep by itself does
    /// not.
    SetTooDeep = 3,
    Crowded = 4,
    BudgetUsed = 5,
    NoPage = 6,
    BadFile = 7,
    BadBudget = 8,
    ShortTable = 9,
    NotATag = 10,
    Mismatch = 11,
    TooDeep = 12,
    Unmatched = 13,
    /// Every tag matches, but the schema does not derive the page, or it has not exactly one outermost element.
    NotDerived = 14,
    NoSummary = 15,
    TooMany = 16,
    /// What is to be written is longer than what was lent for it: a row, or the output of a split ([`Answer::ShortOutput`]).
    ShortRow = 17,
    Unknown = u32::MAX,
}

impl Answer {
    /// A split's name for 17, which [`Answer::ShortRow`] is of a fragment and a join.
    #[allow(non_upper_case_globals)]
    pub const ShortOutput: Answer = Answer::ShortRow;

    /// Every answer that a call gives, other than 0.
    pub const ALL: [Answer; 17] = {
        use Answer::*;
        [
            BrokenMismatch,
            BrokenInvalid,
            SetTooDeep,
            Crowded,
            BudgetUsed,
            NoPage,
            BadFile,
            BadBudget,
            ShortTable,
            NotATag,
            Mismatch,
            TooDeep,
            Unmatched,
            NotDerived,
            NoSummary,
            TooMany,
            ShortRow,
        ]
    };

    /// The name of an answer's number.
    pub fn of(number: u32) -> Answer {
        Answer::ALL
            .into_iter()
            .find(|a| *a as u32 == number)
            .unwrap_or(Answer::Unknown)
    }
}
