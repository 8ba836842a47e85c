//! What both readers of rule texts speak of: refusals, limits and the classes of bytes.

/// Refusal 1: over 16,384 bytes.
pub const LONG_TEXT: u32 = 1;
/// Refusal 2: image area under 1,284 or name area under 1,200.
pub const SHORT_TEXT_AREA: u32 = 2;
/// Refusal 3: not a token.
pub const NO_TOKEN: u32 = 3;
/// Refusal 4: not allowed here, or the text ended.
pub const MISPLACED: u32 = 4;
/// Refusal 5: the ninth name of a side, the 33rd symbol, the first name of rule 65, the 15th other
/// word.
pub const TOO_MANY: u32 = 5;
/// Refusal 6: an event named twice.
pub const EVENT_TWICE: u32 = 6;

pub const MAX_TEXT: usize = 16_384;
pub const MAX_IMAGE: usize = 1_284;
pub const MAX_NAME: usize = 24;
pub const MAX_SIDE: usize = 8;
pub const MAX_RULES: usize = 64;
pub const MAX_SYMBOLS: usize = 32;
pub const MAX_VERDICTS: usize = 16;
pub const SLOTS: usize = MAX_SYMBOLS + MAX_VERDICTS;

/// A slot: length byte, name, zeros.
pub type Slot = [u8; 1 + MAX_NAME];

// What a byte may be.
pub const OTHER: u8 = 0;
pub const SEPARATOR: u8 = 1;
pub const LETTER: u8 = 2;
pub const LATER: u8 = 3;

pub const CLASSES: [u8; 256] = {
    let mut classes = [OTHER; 256];
    let mut byte = 0;
    while byte < 256 {
        classes[byte] = match byte as u8 {
            b' ' | b'\t' | b'\r' | b'\n' => SEPARATOR,
            b'A'..=b'Z' | b'a'..=b'z' => LETTER,
            b'0'..=b'9' | b'_' => LATER,
            _ => OTHER,
        };
        byte += 1;
    }
    classes
};
