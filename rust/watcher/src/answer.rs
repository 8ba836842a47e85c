//! What a call of the monitor answers and counts.

use crate::Refusal;

/// Why a call ended.
///
/// # Example
///
/// ```
/// use watcher::Answer;
///
/// assert_eq!(Answer::from_byte(1), Some(Answer::Spent));
/// assert_eq!(Answer::from_byte(16), Some(Answer::Verdict(0)));
/// assert_eq!(Answer::from_byte(3), None);
/// assert_eq!(Answer::Verdict(2).byte(), 18);
/// ```
#[derive(Clone, Copy, Debug, PartialEq, Eq, Hash)]
pub enum Answer {
    /// No symbol waits.
    Quiet,
    /// As many steps were taken as the call had fuel.
    Spent,
    /// The next step would leave more symbols than the monitor has room for.
    Full,
    /// This verdict was reached: 0 is fail, 1 succeed.
    Verdict(u8),
}

impl Answer {
    /// The answer that a byte stands for: 0 Quiet, 1 Spent, 2 Full, from 16 to 31 a verdict.
    pub fn from_byte(byte: u8) -> Option<Answer> {
        match byte {
            0 => Some(Answer::Quiet),
            1 => Some(Answer::Spent),
            2 => Some(Answer::Full),
            16..=31 => Some(Answer::Verdict(byte - 16)),
            _ => None,
        }
    }

    /// The byte that stands for this answer.
    ///
    /// # Panics
    ///
    /// If a verdict is above 15, which no rule image has.
    pub fn byte(self) -> u8 {
        match self {
            Answer::Quiet => 0,
            Answer::Spent => 1,
            Answer::Full => 2,
            Answer::Verdict(verdict) => {
                assert!(verdict < 16, "there is no verdict {verdict}");
                16 + verdict
            }
        }
    }
}

/// What a call, or the calls of a batch, did.
#[derive(Clone, Copy, Debug, Default, PartialEq, Eq, Hash)]
pub struct Counts {
    /// Steps: waiting symbols taken onto the settled string.
    pub steps: u64,
    /// Rewrites: steps after which a left side was replaced, by a verdict too.
    pub rewrites: u64,
    /// Symbols that these rewrites put back before the waiting ones.
    pub put_back: u64,
}

/// What an accepted offer or go-on gives.
#[derive(Clone, Copy, Debug, PartialEq, Eq, Hash)]
pub struct Run {
    /// Why it ended.
    pub answer: Answer,
    /// What it did.
    pub counts: Counts,
}

/// What a batch gives that is not refused.
#[derive(Clone, Copy, Debug, PartialEq, Eq, Hash)]
pub struct Batch {
    /// Why the first event that was not accepted was refused; none if all were accepted.
    pub stop: Option<Refusal>,
    /// The number of events accepted.
    pub accepted: usize,
    /// What the accepted offers did together.
    pub counts: Counts,
}
