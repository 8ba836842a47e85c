//! Rule texts: their images and their names.

use crate::{raw, Refusal};
use std::error::Error;
use std::fmt;

/// The length in bytes of the longest rule text.
pub const MAX_TEXT_BYTES: usize = 16_384;

/// The length in bytes of the names of a rule text: 48 slots of 25 bytes.
pub const NAMES_BYTES: usize = SLOTS * SLOT;

/// The slots: 32 for symbols, then 16 for verdicts.
const SLOTS: usize = 48;
/// The slots of symbols.
const SYMBOL_SLOTS: usize = 32;
/// The bytes of a slot: the name's length, the name, zeros.
const SLOT: usize = 25;

/// Writes the image of a rule text into `image` and its names into `names`, and returns the number of
/// bytes of the image.
///
/// The area for the image has at least [`MAX_IMAGE_BYTES`](crate::MAX_IMAGE_BYTES) bytes, though the
/// image may be shorter, and that for the names at least [`NAMES_BYTES`], which are all written. Bytes
/// beyond the image and beyond the names keep their values. [`Names::new`] takes the names.
///
/// # Errors
///
/// [`Refusal::LONG_TEXT`], then [`Refusal::SHORT_TEXT_AREA`]. Then the first token at which the text
/// breaks decides, by the first of [`Refusal::NO_TOKEN`], [`Refusal::MISPLACED`], [`Refusal::TOO_MANY`]
/// and [`Refusal::EVENT_TWICE`] that is true of it. Both areas are as they were.
///
/// # Example
///
/// ```
/// use watcher::{read_rules, Names, MAX_IMAGE_BYTES, NAMES_BYTES};
///
/// let mut image = [9; MAX_IMAGE_BYTES];
/// let mut slots = [9; NAMES_BYTES];
/// let length = read_rules(b"events ping . ping ping -> #twice .", &mut image, &mut slots)?;
/// assert_eq!(
///     image[..length],
///     [
///         1, 1, 3, 1, // one symbol, one rule, three verdicts, one event
///         2, 1, 2, 0, // rule 0: two symbols become verdict 2
///         0, 0, // left side of rule 0
///     ]
/// );
/// assert_eq!(image[length..], [9; MAX_IMAGE_BYTES - 10]);
/// assert_eq!(Names::new(slots).name_of_verdict(2), Some("twice"));
/// # Ok::<(), watcher::TextRefusal>(())
/// ```
pub fn read_rules(text: &[u8], image: &mut [u8], names: &mut [u8]) -> Result<usize, TextRefusal> {
    let mut out = [0; 2];
    let result = raw::read_rules(text, image, names, &mut out);
    // The length of the image and the place in the text are each at most the length of a slice.
    let [length, place] = out.map(|word| word as usize);
    match Refusal::from_result(result) {
        Ok(()) => Ok(length),
        Err(refusal) => Err(TextRefusal { refusal, place }),
    }
}

/// Why a rule text was refused, and at which place.
///
/// # Example
///
/// ```
/// use watcher::{Refusal, Rules};
///
/// let refused = Rules::read("events a b a .").unwrap_err();
/// assert_eq!((refused.refusal, refused.place), (Refusal::EVENT_TWICE, 11));
/// assert_eq!(refused.to_string(), "refused 6: an event is named twice, at byte 11");
/// ```
#[derive(Clone, Copy, Debug, PartialEq, Eq, Hash)]
pub struct TextRefusal {
    /// The reason.
    pub refusal: Refusal,
    /// The first byte of the token at which the text breaks; the text's length if it ended too early; 0
    /// if the text is too long or an area too short.
    pub place: usize,
}

impl fmt::Display for TextRefusal {
    fn fmt(&self, f: &mut fmt::Formatter<'_>) -> fmt::Result {
        match self.refusal {
            Refusal::LONG_TEXT | Refusal::SHORT_TEXT_AREA => self.refusal.fmt(f),
            _ => write!(f, "{}, at byte {}", self.refusal, self.place),
        }
    }
}

impl Error for TextRefusal {}

/// The names of symbols and verdicts, as [`read_rules`] writes them.
///
/// They are 48 slots of 25 bytes: the name's length, the name, and zeros. Slots 0 to 31 are those of the
/// symbols, slots 32 to 47 those of the verdicts, without their `#`. A slot of zeros is unused.
///
/// # Example
///
/// ```
/// use watcher::{Rules, TextRefusal};
///
/// let rules = Rules::read("events a b . b a -> c . c c -> #late .")?;
/// let names = rules.names();
/// assert_eq!(names.symbol("c"), Some(2));
/// assert_eq!(names.symbol("d"), None);
/// assert_eq!(names.name_of_symbol(1), Some("b"));
/// assert_eq!(names.name_of_symbol(3), None);
/// assert_eq!(names.name_of_verdict(0), Some("fail"));
/// assert_eq!(names.name_of_verdict(2), Some("late"));
/// # Ok::<(), TextRefusal>(())
/// ```
#[derive(Clone, PartialEq, Eq)]
pub struct Names {
    slots: [u8; NAMES_BYTES],
}

impl Names {
    /// The names in these slots.
    pub fn new(slots: [u8; NAMES_BYTES]) -> Names {
        Names { slots }
    }

    /// The slots.
    pub fn slots(&self) -> &[u8; NAMES_BYTES] {
        &self.slots
    }

    /// The symbol with this name.
    pub fn symbol(&self, name: impl AsRef<[u8]>) -> Option<u8> {
        let number = raw::symbol(&self.slots, name.as_ref());
        (number < SYMBOL_SLOTS as u32).then_some(number as u8)
    }

    /// The name of a symbol.
    pub fn name_of_symbol(&self, symbol: u8) -> Option<&str> {
        let slot = usize::from(symbol);
        if slot < SYMBOL_SLOTS {
            self.name(slot)
        } else {
            None
        }
    }

    /// The name of a verdict, without its `#`.
    pub fn name_of_verdict(&self, verdict: u8) -> Option<&str> {
        self.name(SYMBOL_SLOTS + usize::from(verdict))
    }

    /// The name in a slot, if there is one.
    fn name(&self, slot: usize) -> Option<&str> {
        let bytes = self.slots.chunks_exact(SLOT).nth(slot)?;
        match usize::from(bytes[0]) {
            0 => None,
            // The reader writes no length above 24 and no byte above 127.
            length => std::str::from_utf8(bytes.get(1..=length)?).ok(),
        }
    }
}

/// No symbol and no verdict has a name.
impl Default for Names {
    fn default() -> Names {
        Names::new([0; NAMES_BYTES])
    }
}

impl fmt::Debug for Names {
    fn fmt(&self, f: &mut fmt::Formatter<'_>) -> fmt::Result {
        let names = |slots: std::ops::Range<usize>| -> Vec<&str> {
            slots.filter_map(|slot| self.name(slot)).collect()
        };
        f.debug_struct("Names")
            .field("symbols", &names(0..SYMBOL_SLOTS))
            .field("verdicts", &names(SYMBOL_SLOTS..SLOTS))
            .finish()
    }
}
