//! The numbers of the reasons for which an operation did nothing.

use std::error::Error;
use std::fmt;

/// The reason for which an operation did nothing, by its number.
///
/// # Example
///
/// ```
/// use watcher::{compile, Refusal};
///
/// let refusal = compile(&[], &mut []).unwrap_err();
/// assert_eq!(refusal, Refusal::BAD_IMAGE);
/// assert_eq!(refusal.number(), 7);
/// assert_eq!(refusal.to_string(), "refused 7: the rule image breaks the layout or a range");
/// ```
#[derive(Clone, Copy, Debug, PartialEq, Eq, Hash)]
pub struct Refusal(u32);

impl Refusal {
    /// Refusal 1: the rule text is longer than [`MAX_TEXT_BYTES`](crate::MAX_TEXT_BYTES).
    pub const LONG_TEXT: Refusal = Refusal(1);

    /// Refusal 2: the image area is shorter than [`MAX_IMAGE_BYTES`](crate::MAX_IMAGE_BYTES), or the
    /// name area shorter than [`NAMES_BYTES`](crate::NAMES_BYTES).
    pub const SHORT_TEXT_AREA: Refusal = Refusal(2);

    /// Refusal 3: what stands there in the rule text is not a token.
    pub const NO_TOKEN: Refusal = Refusal(3);

    /// Refusal 4: the token is not allowed there, or the rule text ended too early.
    pub const MISPLACED: Refusal = Refusal(4);

    /// Refusal 5: the ninth name of a side, the 33rd symbol, the first name of rule 65 or the 15th
    /// verdict beside fail and succeed.
    pub const TOO_MANY: Refusal = Refusal(5);

    /// Refusal 6: an event is named twice.
    pub const EVENT_TWICE: Refusal = Refusal(6);

    /// Refusal 7: the rule image breaks the layout or a range.
    pub const BAD_IMAGE: Refusal = Refusal(7);

    /// Refusal 8: the table area is shorter than the words needed.
    pub const SHORT_AREA: Refusal = Refusal(8);

    /// Refusal 9: the table does not begin with the words that [`compile`](crate::compile) gives for
    /// the image.
    pub const OTHER_TABLE: Refusal = Refusal(9);

    /// Refusal 10: an area of the monitor has another length than [`ROOM`](crate::ROOM).
    pub const OTHER_LENGTH: Refusal = Refusal(10);

    /// Refusal 11: head and areas are not those of a monitor with these rules.
    pub const NOT_DESCRIBED: Refusal = Refusal(11);

    /// Refusal 12: the symbol offered is not an event.
    pub const NO_EVENT: Refusal = Refusal(12);

    /// Refusal 13: the fuel is above [`MAX_FUEL`](crate::MAX_FUEL).
    pub const TOO_MUCH_FUEL: Refusal = Refusal(13);

    /// Refusal 14: a verdict stands.
    pub const VERDICT_STANDS: Refusal = Refusal(14);

    /// Refusal 15: the monitor holds as many symbols as it can.
    pub const NO_ROOM: Refusal = Refusal(15);

    /// Refusal 16: more than [`MAX_EVENTS`](crate::MAX_EVENTS) events in a batch, or fewer answer
    /// bytes than events.
    pub const BATCH_LENGTH: Refusal = Refusal(16);

    /// The refusal's number.
    pub fn number(self) -> u32 {
        self.0
    }

    /// What an operation returned: 0 is no refusal.
    pub(crate) fn from_result(result: u32) -> Result<(), Refusal> {
        match result {
            0 => Ok(()),
            number => Err(Refusal(number)),
        }
    }
}

impl fmt::Display for Refusal {
    fn fmt(&self, f: &mut fmt::Formatter<'_>) -> fmt::Result {
        let reason = match *self {
            Refusal::LONG_TEXT => "the rule text is longer than 16384 bytes",
            Refusal::SHORT_TEXT_AREA => "the image area or the name area is too short",
            Refusal::NO_TOKEN => "not a token",
            Refusal::MISPLACED => "the token is not allowed here, or the text ended",
            Refusal::TOO_MANY => "too many names in a side, symbols, rules or verdicts",
            Refusal::EVENT_TWICE => "an event is named twice",
            Refusal::BAD_IMAGE => "the rule image breaks the layout or a range",
            Refusal::SHORT_AREA => "the table area is too short",
            Refusal::OTHER_TABLE => "the table is not that of the rule image",
            Refusal::OTHER_LENGTH => "an area of the monitor has another length",
            Refusal::NOT_DESCRIBED => "head and areas are not those of a monitor with these rules",
            Refusal::NO_EVENT => "the symbol is not an event",
            Refusal::TOO_MUCH_FUEL => "the fuel is above 65535",
            Refusal::VERDICT_STANDS => "a verdict stands",
            Refusal::NO_ROOM => "the monitor has no room for another symbol",
            Refusal::BATCH_LENGTH => "too many events, or fewer answer bytes than events",
            _ => return write!(f, "refused {}", self.0),
        };
        write!(f, "refused {}: {reason}", self.0)
    }
}

impl Error for Refusal {}
