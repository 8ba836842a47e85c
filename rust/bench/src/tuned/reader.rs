/*!
The reader of rule texts, tuned: as fast as we could make safe Rust.

One pass over the text, as in the library; names are kept in another way. A name is three words of
eight bytes, loaded from the text as they stand, and is looked up by one word made of the three, in
which most names differ. The image is built in local arrays and copied out when the whole text is
good, and only then are slots made.
*/

use crate::shared::reader::*;

#[inline(always)]
fn class(byte: u8) -> u8 {
    CLASSES[usize::from(byte)]
}

/// A name: its bytes and then zeros, in three words. Words are compared at once. They are loaded
/// from the text as they stand, where bytes that were just written would be read back late.
#[derive(Clone, Copy)]
struct Words([u64; 3]);

impl Words {
    const NONE: Words = Words([0; 3]);

    /// The name of the first `length` of these bytes.
    #[inline(always)]
    fn new(bytes: &[u8; MAX_NAME], length: usize) -> Words {
        let (words, _) = bytes.as_chunks();
        let length = length as u32;
        Words([
            first_bytes(u64::from_le_bytes(words[0]), length),
            first_bytes(u64::from_le_bytes(words[1]), length.saturating_sub(8)),
            first_bytes(u64::from_le_bytes(words[2]), length.saturating_sub(16)),
        ])
    }

    /// The name with these bytes, for names that are known.
    const fn of(bytes: &[u8]) -> Words {
        let mut words = [0; 3];
        let mut place = 0;
        while place < bytes.len() {
            words[place / 8] |= (bytes[place] as u64) << (8 * (place % 8));
            place += 1;
        }
        Words(words)
    }

    /// The longest name that `rest` begins with and its length, or refusal 3. What follows may be a
    /// byte more of it.
    #[inline(always)]
    fn first(rest: &[u8]) -> Result<(Words, usize), u32> {
        let mut padded = [0; MAX_NAME];
        let bytes = match rest.first_chunk::<MAX_NAME>() {
            Some(bytes) => bytes,
            None => {
                padded[..rest.len()].copy_from_slice(rest);
                &padded
            }
        };
        let length = bytes
            .iter()
            .position(|&byte| class(byte) < LETTER)
            .unwrap_or(MAX_NAME);
        if length == 0 || class(bytes[0]) != LETTER {
            return Err(NO_TOKEN);
        }
        Ok((Words::new(bytes, length), length))
    }

    /// Whether it is the other name. Not `==`, which becomes a call.
    #[inline(always)]
    fn is(&self, other: &Words) -> bool {
        let (Words([a, b, c]), Words([d, e, f])) = (self, other);
        (a ^ d) | (b ^ e) | (c ^ f) == 0
    }

    /// A word in which names mostly differ.
    #[inline(always)]
    fn mixed(&self) -> u64 {
        let Words([first, second, third]) = self;
        first ^ second.rotate_left(20) ^ third.rotate_left(40)
    }

    /// The slot: length byte, name, zeros.
    fn slot(&self) -> Slot {
        let mut slot = [0; 1 + MAX_NAME];
        let (words, _) = slot[1..].as_chunks_mut();
        for (bytes, word) in words.iter_mut().zip(self.0) {
            *bytes = word.to_le_bytes();
        }
        // No byte of a name is 0.
        let length = |word: u64| 8 - word.leading_zeros() as u8 / 8;
        slot[0] = self.0.map(length).iter().sum();
        slot
    }
}

/// The first `count` bytes of a word, and zeros.
#[inline(always)]
fn first_bytes(word: u64, count: u32) -> u64 {
    match count {
        0..8 => word & ((1 << (8 * count)) - 1),
        _ => word,
    }
}

const EVENTS: Words = Words::of(b"events");
const EPSILON: Words = Words::of(b"epsilon");
const FAIL: Words = Words::of(b"fail");
const SUCCEED: Words = Words::of(b"succeed");

enum Token {
    Name(Words),
    Word(Words),
    Arrow,
    Stop,
    Mark,
    End,
}

/// The tokens of a text.
struct Tokens<'a> {
    text: &'a [u8],
    /// The first byte of the last token, or the text's length at the end.
    place: usize,
    /// The byte behind the last token.
    next: usize,
}

impl Tokens<'_> {
    /// The next token, or refusal 3.
    #[inline(always)]
    fn next(&mut self) -> Result<Token, u32> {
        let text = self.text;
        let mut begin = self.next;
        while begin < text.len() && class(text[begin]) == SEPARATOR {
            begin += 1;
        }
        self.place = begin;
        let rest = &text[begin..];
        let Some(&first) = rest.first() else {
            return Ok(Token::End);
        };
        let (token, length) = match first {
            b'.' => (Token::Stop, 1),
            b'-' if rest.get(1) == Some(&b'>') => (Token::Arrow, 2),
            b'#' => {
                let (name, length) = Words::first(&rest[1..])?;
                (Token::Word(name), 1 + length)
            }
            _ => match Words::first(rest) {
                Ok((name, length)) => (Token::Name(name), length),
                // Last, so that names do not wait for it.
                Err(_) if first == b'^' => (Token::Mark, 1),
                Err(refusal) => return Err(refusal),
            },
        };
        match rest.get(length) {
            Some(&byte) if class(byte) != SEPARATOR => Err(NO_TOKEN),
            _ => {
                self.next = begin + length;
                Ok(token)
            }
        }
    }
}

/// Names with a number each, and the mixed words apart from them.
struct Names<const N: usize> {
    names: [Words; N],
    mixed: [u64; N],
    count: usize,
}

impl<const N: usize> Names<N> {
    fn new() -> Names<N> {
        Names {
            names: [Words::NONE; N],
            mixed: [0; N],
            count: 0,
        }
    }

    #[inline(always)]
    fn find(&self, name: &Words) -> Option<usize> {
        let mixed = name.mixed();
        let names = &self.names[..self.count];
        let others = &self.mixed[..self.count];
        others
            .iter()
            .zip(names)
            .position(|(&other_mixed, other)| other_mixed == mixed && other.is(name))
    }

    /// The name's number, the next one if it is new; or refusal 5.
    #[inline(always)]
    fn number(&mut self, name: &Words) -> Result<u8, u32> {
        match self.find(name) {
            Some(number) => Ok(number as u8),
            None => self.add(name),
        }
    }

    /// The number of a new name, or refusal 5.
    fn add(&mut self, name: &Words) -> Result<u8, u32> {
        if self.count == N {
            return Err(TOO_MANY);
        }
        self.names[self.count] = *name;
        self.mixed[self.count] = name.mixed();
        self.count += 1;
        Ok((self.count - 1) as u8)
    }

    /// Writes the names' slots, and zeros behind them.
    fn write(&self, slots: &mut [Slot]) {
        slots.fill([0; 1 + MAX_NAME]);
        for (slot, name) in slots.iter_mut().zip(&self.names[..self.count]) {
            *slot = name.slot();
        }
    }
}

/// What has been read.
struct Reading {
    symbols: Names<MAX_SYMBOLS>,
    verdicts: Names<MAX_VERDICTS>,
    events: usize,
    contents: [[u8; 4]; MAX_RULES],
    rules: usize,
    bodies: [u8; MAX_RULES * 2 * MAX_SIDE],
    bodies_len: usize,
}

impl Reading {
    fn new() -> Reading {
        Reading {
            symbols: Names::new(),
            verdicts: Names::new(),
            events: 0,
            contents: [[0; 4]; MAX_RULES],
            rules: 0,
            bodies: [0; MAX_RULES * 2 * MAX_SIDE],
            bodies_len: 0,
        }
    }

    /// Reads the whole text, or says why it breaks at the last token taken.
    fn read(&mut self, tokens: &mut Tokens) -> Result<(), u32> {
        for name in [FAIL, SUCCEED] {
            self.verdicts.add(&name)?;
        }
        match tokens.next()? {
            Token::Name(name) if name.is(&EVENTS) => {}
            _ => return Err(MISPLACED),
        }
        loop {
            match tokens.next()? {
                Token::Name(name) => {
                    if self.symbols.find(&name).is_some() {
                        return Err(EVENT_TWICE);
                    }
                    self.symbols.add(&name)?;
                    self.events += 1;
                }
                Token::Stop if self.events > 0 => break,
                _ => return Err(MISPLACED),
            }
        }
        loop {
            match tokens.next()? {
                Token::End => return Ok(()),
                Token::Name(name) => self.rule(tokens, 0, &name)?,
                Token::Mark => match tokens.next()? {
                    Token::Name(name) => self.rule(tokens, 1, &name)?,
                    _ => return Err(MISPLACED),
                },
                _ => return Err(MISPLACED),
            }
        }
    }

    /// Reads the rule that begins with this name, behind a mark if `mark` is 1.
    fn rule(&mut self, tokens: &mut Tokens, mark: u8, first: &Words) -> Result<(), u32> {
        if self.rules == MAX_RULES {
            return Err(TOO_MANY);
        }
        let left = match self.side(tokens, first)? {
            (left, Token::Arrow) => left,
            _ => return Err(MISPLACED),
        };
        let (kind, right) = match tokens.next()? {
            Token::Name(name) => match self.side(tokens, &name)? {
                (right, Token::Stop) => (0, right),
                _ => return Err(MISPLACED),
            },
            Token::Word(word) => {
                let right = if word.is(&EPSILON) {
                    (0, 0)
                } else {
                    (1, self.verdicts.number(&word)?)
                };
                match tokens.next()? {
                    Token::Stop => right,
                    _ => return Err(MISPLACED),
                }
            }
            _ => return Err(MISPLACED),
        };
        self.contents[self.rules] = [left, kind, right, mark];
        self.rules += 1;
        Ok(())
    }

    /// Reads the side that begins with this name: its length, and the token behind it.
    fn side(&mut self, tokens: &mut Tokens, first: &Words) -> Result<(u8, Token), u32> {
        self.symbol(first)?;
        let mut length = 1;
        loop {
            match tokens.next()? {
                Token::Name(_) if length == MAX_SIDE as u8 => return Err(TOO_MANY),
                Token::Name(name) => self.symbol(&name)?,
                token => return Ok((length, token)),
            }
            length += 1;
        }
    }

    /// Takes a name as the next symbol of the bodies.
    #[inline(always)]
    fn symbol(&mut self, name: &Words) -> Result<(), u32> {
        self.bodies[self.bodies_len] = self.symbols.number(name)?;
        self.bodies_len += 1;
        Ok(())
    }

    /// Writes image and names, and returns the image's length.
    fn write(&self, image: &mut [u8], names: &mut [u8]) -> usize {
        let header = [
            self.symbols.count,
            self.rules,
            self.verdicts.count,
            self.events,
        ];
        let length = 4 + 4 * self.rules + self.bodies_len;
        let (head, rest) = image[..length].split_at_mut(4);
        let (contents, bodies) = rest.split_at_mut(4 * self.rules);
        head.copy_from_slice(&header.map(|count| count as u8));
        contents.copy_from_slice(self.contents[..self.rules].as_flattened());
        bodies.copy_from_slice(&self.bodies[..self.bodies_len]);
        let (slots, _) = names.as_chunks_mut();
        let (symbols, verdicts) = slots[..SLOTS].split_at_mut(MAX_SYMBOLS);
        self.symbols.write(symbols);
        self.verdicts.write(verdicts);
        length
    }
}

/// Writes image and names of a text: returns 0 or a refusal. Afterwards `out` holds the image's
/// length and 0; beside a refusal 0 and its place.
// Not inlined, as the library is not: the benchmark's loop must not see what is called.
#[inline(never)]
pub fn read_rules(text: &[u8], image: &mut [u8], names: &mut [u8], out: &mut [u64; 2]) -> u32 {
    *out = [0; 2];
    if text.len() > MAX_TEXT {
        return LONG_TEXT;
    }
    if image.len() < MAX_IMAGE || names.len() < SLOTS * size_of::<Slot>() {
        return SHORT_TEXT_AREA;
    }
    let mut tokens = Tokens {
        text,
        place: 0,
        next: 0,
    };
    let mut reading = Reading::new();
    match reading.read(&mut tokens) {
        Ok(()) => {
            out[0] = reading.write(image, names) as u64;
            0
        }
        Err(refusal) => {
            out[1] = tokens.place as u64;
            refusal
        }
    }
}
