/*!
The reader of rule texts, written plainly: the library's algorithm, as it stood before the tuned one
was written, and the mark.

One pass over the text. Names and image are built in local arrays and copied out when the whole text
is good. A name is looked up among the slots from the first to the last.
*/

use crate::shared::reader::*;

fn class(byte: u8) -> u8 {
    CLASSES[usize::from(byte)]
}

enum Token<'a> {
    Name(&'a [u8]),
    Word(&'a [u8]),
    Arrow,
    Stop,
    Mark,
    End,
}

/// The tokens of a text.
struct Tokens<'a> {
    text: &'a [u8],
    /// The first byte of the last token, or the text's length at the end.
    place: usize,
    /// The byte behind the last token.
    next: usize,
}

impl<'a> Tokens<'a> {
    /// The next token, or refusal 3.
    fn next(&mut self) -> Result<Token<'a>, u32> {
        let text = self.text;
        let mut begin = self.next;
        while begin < text.len() && class(text[begin]) == SEPARATOR {
            begin += 1;
        }
        self.place = begin;
        let rest = &text[begin..];
        let Some(&first) = rest.first() else {
            return Ok(Token::End);
        };
        let (token, length) = match first {
            b'.' => (Token::Stop, 1),
            b'-' if rest.get(1) == Some(&b'>') => (Token::Arrow, 2),
            b'^' => (Token::Mark, 1),
            b'#' => {
                let name = name(&rest[1..])?;
                (Token::Word(name), 1 + name.len())
            }
            _ => {
                let name = name(rest)?;
                (Token::Name(name), name.len())
            }
        };
        match rest.get(length) {
            Some(&byte) if class(byte) != SEPARATOR => Err(NO_TOKEN),
            _ => {
                self.next = begin + length;
                Ok(token)
            }
        }
    }
}

/// The longest name that `rest` begins with, or refusal 3. What follows may be a byte more of it.
fn name(rest: &[u8]) -> Result<&[u8], u32> {
    let rest = &rest[..rest.len().min(MAX_NAME)];
    let length = rest
        .iter()
        .position(|&byte| class(byte) < LETTER)
        .unwrap_or(rest.len());
    if length == 0 || class(rest[0]) != LETTER {
        return Err(NO_TOKEN);
    }
    Ok(&rest[..length])
}

fn slot(name: &[u8]) -> Slot {
    let mut slot = [0; 1 + MAX_NAME];
    slot[0] = name.len() as u8;
    slot[1..=name.len()].copy_from_slice(name);
    slot
}

/// Names with a number each.
struct Names<const N: usize> {
    slots: [Slot; N],
    count: usize,
}

impl<const N: usize> Names<N> {
    fn find(&self, slot: &Slot) -> Option<usize> {
        // Other slots mostly differ in the last byte of the name.
        let last = usize::from(slot[0]).min(MAX_NAME);
        self.slots[..self.count]
            .iter()
            .position(|other| other[last] == slot[last] && other == slot)
    }

    /// The name's number, the next one if it is new; or refusal 5.
    fn number(&mut self, slot: &Slot) -> Result<u8, u32> {
        if let Some(number) = self.find(slot) {
            return Ok(number as u8);
        }
        self.add(slot)
    }

    fn add(&mut self, slot: &Slot) -> Result<u8, u32> {
        if self.count == N {
            return Err(TOO_MANY);
        }
        self.slots[self.count] = *slot;
        self.count += 1;
        Ok((self.count - 1) as u8)
    }
}

/// What has been read.
struct Reading {
    symbols: Names<MAX_SYMBOLS>,
    verdicts: Names<MAX_VERDICTS>,
    events: usize,
    contents: [[u8; 4]; MAX_RULES],
    rules: usize,
    bodies: [u8; MAX_RULES * 2 * MAX_SIDE],
    bodies_len: usize,
}

impl Reading {
    fn new() -> Reading {
        let mut reading = Reading {
            symbols: Names {
                slots: [[0; 1 + MAX_NAME]; MAX_SYMBOLS],
                count: 0,
            },
            verdicts: Names {
                slots: [[0; 1 + MAX_NAME]; MAX_VERDICTS],
                count: 2,
            },
            events: 0,
            contents: [[0; 4]; MAX_RULES],
            rules: 0,
            bodies: [0; MAX_RULES * 2 * MAX_SIDE],
            bodies_len: 0,
        };
        reading.verdicts.slots[0] = slot(b"fail");
        reading.verdicts.slots[1] = slot(b"succeed");
        reading
    }

    /// Reads the whole text, or says why it breaks at the last token taken.
    fn read(&mut self, tokens: &mut Tokens) -> Result<(), u32> {
        match tokens.next()? {
            Token::Name(b"events") => {}
            _ => return Err(MISPLACED),
        }
        loop {
            match tokens.next()? {
                Token::Name(name) => {
                    let slot = slot(name);
                    if self.symbols.find(&slot).is_some() {
                        return Err(EVENT_TWICE);
                    }
                    self.symbols.add(&slot)?;
                    self.events += 1;
                }
                Token::Stop if self.events > 0 => break,
                _ => return Err(MISPLACED),
            }
        }
        loop {
            match tokens.next()? {
                Token::End => return Ok(()),
                Token::Name(name) => self.rule(tokens, 0, name)?,
                Token::Mark => match tokens.next()? {
                    Token::Name(name) => self.rule(tokens, 1, name)?,
                    _ => return Err(MISPLACED),
                },
                _ => return Err(MISPLACED),
            }
        }
    }

    /// Reads the rule that begins with this name, behind a mark if `mark` is 1.
    fn rule(&mut self, tokens: &mut Tokens, mark: u8, first: &[u8]) -> Result<(), u32> {
        if self.rules == MAX_RULES {
            return Err(TOO_MANY);
        }
        let left = match self.side(tokens, first)? {
            (left, Token::Arrow) => left,
            _ => return Err(MISPLACED),
        };
        let (kind, right) = match tokens.next()? {
            Token::Name(name) => match self.side(tokens, name)? {
                (right, Token::Stop) => (0, right),
                _ => return Err(MISPLACED),
            },
            Token::Word(word) => {
                let right = match word {
                    b"epsilon" => (0, 0),
                    _ => (1, self.verdicts.number(&slot(word))?),
                };
                match tokens.next()? {
                    Token::Stop => right,
                    _ => return Err(MISPLACED),
                }
            }
            _ => return Err(MISPLACED),
        };
        self.contents[self.rules] = [left, kind, right, mark];
        self.rules += 1;
        Ok(())
    }

    /// Reads the side that begins with this name: its length, and the token behind it.
    fn side<'a>(&mut self, tokens: &mut Tokens<'a>, first: &[u8]) -> Result<(u8, Token<'a>), u32> {
        self.symbol(first)?;
        let mut length = 1;
        loop {
            match tokens.next()? {
                Token::Name(_) if length == MAX_SIDE as u8 => return Err(TOO_MANY),
                Token::Name(name) => self.symbol(name)?,
                token => return Ok((length, token)),
            }
            length += 1;
        }
    }

    /// Takes a name as the next symbol of the bodies.
    fn symbol(&mut self, name: &[u8]) -> Result<(), u32> {
        self.bodies[self.bodies_len] = self.symbols.number(&slot(name))?;
        self.bodies_len += 1;
        Ok(())
    }

    /// Writes image and names, and returns the image's length.
    fn write(&self, image: &mut [u8], names: &mut [u8]) -> usize {
        let header = [
            self.symbols.count,
            self.rules,
            self.verdicts.count,
            self.events,
        ];
        let length = 4 + 4 * self.rules + self.bodies_len;
        let (head, rest) = image[..length].split_at_mut(4);
        let (contents, bodies) = rest.split_at_mut(4 * self.rules);
        head.copy_from_slice(&header.map(|count| count as u8));
        contents.copy_from_slice(self.contents[..self.rules].as_flattened());
        bodies.copy_from_slice(&self.bodies[..self.bodies_len]);
        let symbols = self.symbols.slots.as_flattened();
        names[..symbols.len()].copy_from_slice(symbols);
        let verdicts = self.verdicts.slots.as_flattened();
        names[symbols.len()..][..verdicts.len()].copy_from_slice(verdicts);
        length
    }
}

/// Writes image and names of a text: returns 0 or a refusal. Afterwards `out` holds the image's
/// length and 0; beside a refusal 0 and its place.
// Not inlined, as the library is not: the benchmark's loop must not see what is called.
#[inline(never)]
pub fn read_rules(text: &[u8], image: &mut [u8], names: &mut [u8], out: &mut [u64; 2]) -> u32 {
    *out = [0; 2];
    if text.len() > MAX_TEXT {
        return LONG_TEXT;
    }
    if image.len() < MAX_IMAGE || names.len() < SLOTS * size_of::<Slot>() {
        return SHORT_TEXT_AREA;
    }
    let mut tokens = Tokens {
        text,
        place: 0,
        next: 0,
    };
    let mut reading = Reading::new();
    match reading.read(&mut tokens) {
        Ok(()) => {
            out[0] = reading.write(image, names) as u64;
            0
        }
        Err(refusal) => {
            out[1] = tokens.place as u64;
            refusal
        }
    }
}
