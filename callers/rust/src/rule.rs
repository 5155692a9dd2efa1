//! A rule as it is handed over: a node table and the literal text beside it.
use crate::constants::ANSWER_WORDS;
use crate::raw;
use crate::reasons::{done_or_refused, Refusal};

/// A node table and its literal text; any bytes. `docs/FORMAT.md` has the format.
#[derive(Clone, Copy, Debug, PartialEq, Eq, Hash)]
pub struct Rule<'a> {
    pub table: &'a [u8],
    pub literal: &'a [u8],
}

impl<'a> Rule<'a> {
    pub const fn new(table: &'a [u8], literal: &'a [u8]) -> Rule<'a> {
        Rule { table, literal }
    }

    /// Whether the table is accepted. An evaluation tests the same before it begins.
    ///
    /// ```
    /// use ombravelik::{Reason, Refusal, Rule};
    ///
    /// // !true
    /// assert_eq!(Rule::new(&[8, 8, 0, 1, 1, 4, 0, 1], &[]).check(), Ok(()));
    /// // `!` with its operand missing
    /// let cut = Rule::new(&[8, 4, 0, 1], &[]);
    /// assert_eq!(cut.check(), Err(Refusal { reason: Reason::WrongExtent, place: 4 }));
    /// ```
    pub fn check(self) -> Result<(), Refusal> {
        let mut answer = [0; ANSWER_WORDS];
        let which = raw::check(self.table, self.literal, &mut answer);
        done_or_refused(which, &answer)
    }
}
