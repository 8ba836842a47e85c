/*!
The reader of rule texts, computed naively.

A text is split into its runs, a run is classified as a whole, and the tokens are taken one by one. What
was read is kept as strings and lists; image and slots are made of these at the end.
*/

use crate::{encode, Right, Rule, RuleSet};

/// Refusal 1: over 16,384 bytes.
pub const LONG_TEXT: u32 = 1;
/// Refusal 2: image area under 1,284 or name area under 1,200.
pub const SHORT_TEXT_AREA: u32 = 2;
/// Refusal 3: not a token.
pub const NO_TOKEN: u32 = 3;
/// Refusal 4: not allowed here, or the text ended.
pub const MISPLACED: u32 = 4;
/// Refusal 5: the ninth name of a side, the 33rd symbol, the first name of rule 65, the 15th other
/// word.
pub const TOO_MANY: u32 = 5;
/// Refusal 6: an event named twice.
pub const EVENT_TWICE: u32 = 6;

/// The most bytes of a text.
pub const MAX_TEXT_BYTES: usize = 16_384;
/// The fewest bytes of an area for the image.
pub const IMAGE_AREA: usize = 1_284;
/// The fewest bytes of an area for the names.
pub const NAME_AREA: usize = 1_200;

/// A name, or the name behind a `#`.
pub type Name = Vec<u8>;

/// A token.
#[derive(Clone, Debug, PartialEq, Eq)]
pub enum Token {
    /// A name.
    Name(Name),
    /// `#` and a name; the name.
    Word(Name),
    /// `->`.
    Arrow,
    /// `.`.
    Stop,
    /// `^`.
    Mark,
}

/// A refusal and its place.
#[derive(Clone, Copy, Debug, PartialEq, Eq)]
pub struct Refused {
    /// The refusal.
    pub refusal: u32,
    /// The place.
    pub place: usize,
}

/// What a good text says.
#[derive(Clone, Debug, PartialEq, Eq)]
pub struct Reading {
    /// The rules.
    pub set: RuleSet,
    /// The name of each symbol.
    pub symbols: Vec<Name>,
    /// The name of each verdict, `fail` and `succeed` first.
    pub verdicts: Vec<Name>,
}

impl Reading {
    /// The image.
    pub fn image(&self) -> Vec<u8> {
        encode(&self.set)
    }

    /// The 48 slots.
    pub fn slots(&self) -> Vec<u8> {
        let mut slots = vec![[0; 25]; 48];
        for (number, name) in self.symbols.iter().enumerate() {
            slots[number] = slot(name);
        }
        for (number, name) in self.verdicts.iter().enumerate() {
            slots[32 + number] = slot(name);
        }
        slots.concat()
    }
}

/// The slot of a name: length byte, name, zeros.
fn slot(name: &[u8]) -> [u8; 25] {
    let mut slot = [0; 25];
    slot[0] = name.len() as u8;
    slot[1..=name.len()].copy_from_slice(name);
    slot
}

/// The runs of bytes that are not separators, each with the place of its first byte.
pub fn runs(text: &[u8]) -> Vec<(usize, &[u8])> {
    let mut runs = Vec::new();
    let mut begin = 0;
    for run in text.split(|&byte| is_separator(byte)) {
        if !run.is_empty() {
            runs.push((begin, run));
        }
        begin += run.len() + 1;
    }
    runs
}

/// Space, tab, CR or LF.
fn is_separator(byte: u8) -> bool {
    [b' ', b'\t', b'\r', b'\n'].contains(&byte)
}

/// The token that a run is, if it is one.
pub fn token(run: &[u8]) -> Option<Token> {
    match run {
        b"->" => Some(Token::Arrow),
        b"." => Some(Token::Stop),
        b"^" => Some(Token::Mark),
        [b'#', name @ ..] if is_name(name) => Some(Token::Word(name.to_vec())),
        name if is_name(name) => Some(Token::Name(name.to_vec())),
        _ => None,
    }
}

/// A letter, then letters, digits or `_`, at most 24 bytes.
fn is_name(run: &[u8]) -> bool {
    let letter = |byte: u8| byte.is_ascii_alphabetic();
    let later = |byte: u8| letter(byte) || byte.is_ascii_digit() || byte == b'_';
    (1..=24).contains(&run.len()) && letter(run[0]) && run[1..].iter().all(|&byte| later(byte))
}

/// Where in the text a token stands: what has been read just before it.
#[derive(Clone, Copy, Debug, PartialEq, Eq)]
enum Behind {
    /// Nothing.
    Nothing,
    /// The word `events`.
    Events,
    /// An event.
    Event,
    /// The `.` that ends the events or a rule.
    Stop,
    /// The `^` of a left side.
    Mark,
    /// A name of a left side.
    LeftName,
    /// An arrow.
    Arrow,
    /// A name of a right side.
    RightName,
    /// A right side's word.
    Word,
}

impl Behind {
    /// Whether the grammar has this token here.
    fn allows(self, token: &Token) -> bool {
        match self {
            Behind::Nothing => *token == Token::Name(b"events".to_vec()),
            Behind::Events | Behind::Mark => matches!(token, Token::Name(_)),
            Behind::Stop => matches!(token, Token::Name(_) | Token::Mark),
            Behind::Event | Behind::RightName => matches!(token, Token::Name(_) | Token::Stop),
            Behind::LeftName => matches!(token, Token::Name(_) | Token::Arrow),
            Behind::Arrow => matches!(token, Token::Name(_) | Token::Word(_)),
            Behind::Word => matches!(token, Token::Stop),
        }
    }
}

/// What has been read.
struct Reader {
    behind: Behind,
    /// The symbols' names, by first appearance.
    symbols: Vec<Name>,
    /// The number of events.
    events: usize,
    /// The verdicts' names.
    verdicts: Vec<Name>,
    /// The rules' left sides.
    lefts: Vec<Left>,
    /// The rules' right sides; one fewer while a left side is read.
    rights: Vec<Side>,
}

/// A left side as it is written.
struct Left {
    marked: bool,
    names: Vec<Name>,
}

/// A right side as it is written.
enum Side {
    Names(Vec<Name>),
    Word(Name),
}

impl Reader {
    /// Takes a token, or says why the text breaks at it.
    fn take(&mut self, token: Token) -> Result<(), u32> {
        if !self.behind.allows(&token) {
            return Err(MISPLACED);
        }
        self.behind = match (self.behind, token) {
            (Behind::Nothing, _) => Behind::Events,
            (Behind::Events | Behind::Event, Token::Name(name)) => {
                // A name read before is no new symbol, so one token is never both 5 and 6.
                if self.symbols.contains(&name) {
                    return Err(EVENT_TWICE);
                }
                self.name(&name)?;
                self.events += 1;
                Behind::Event
            }
            // A `^` begins no rule too many: the name behind it does.
            (Behind::Stop, Token::Mark) => Behind::Mark,
            (Behind::Stop | Behind::Mark, Token::Name(name)) => {
                if self.lefts.len() == 64 {
                    return Err(TOO_MANY);
                }
                self.name(&name)?;
                self.lefts.push(Left {
                    marked: self.behind == Behind::Mark,
                    names: vec![name],
                });
                Behind::LeftName
            }
            (Behind::LeftName, Token::Name(name)) => {
                self.name(&name)?;
                let left = self.lefts.last_mut().expect("a left side is being read");
                if left.names.len() == 8 {
                    return Err(TOO_MANY);
                }
                left.names.push(name);
                Behind::LeftName
            }
            (Behind::Arrow, Token::Name(name)) => {
                self.name(&name)?;
                self.rights.push(Side::Names(vec![name]));
                Behind::RightName
            }
            (Behind::RightName, Token::Name(name)) => {
                self.name(&name)?;
                let Some(Side::Names(right)) = self.rights.last_mut() else {
                    panic!("a right side of names is being read");
                };
                if right.len() == 8 {
                    return Err(TOO_MANY);
                }
                right.push(name);
                Behind::RightName
            }
            (_, Token::Word(word)) => {
                self.word(&word)?;
                self.rights.push(Side::Word(word));
                Behind::Word
            }
            (_, Token::Arrow) => Behind::Arrow,
            (_, Token::Stop) => Behind::Stop,
            (_, Token::Name(_) | Token::Mark) => panic!("neither is allowed here"),
        };
        Ok(())
    }

    /// Takes a name as a symbol, a new one if it has not been read before.
    fn name(&mut self, name: &Name) -> Result<(), u32> {
        if !self.symbols.contains(name) {
            if self.symbols.len() == 32 {
                return Err(TOO_MANY);
            }
            self.symbols.push(name.clone());
        }
        Ok(())
    }

    /// Takes a word: the empty string, or a verdict, a new one if it has not been read before.
    fn word(&mut self, word: &Name) -> Result<(), u32> {
        if word != b"epsilon" && !self.verdicts.contains(word) {
            if self.verdicts.len() == 2 + 14 {
                return Err(TOO_MANY);
            }
            self.verdicts.push(word.clone());
        }
        Ok(())
    }

    /// What the whole text says.
    fn finish(self) -> Reading {
        let number = |names: &[Name], name: &Name| -> u8 {
            let number = names.iter().position(|other| other == name);
            number.expect("the name was read") as u8
        };
        let symbols = |side: &[Name]| -> Vec<u8> {
            side.iter()
                .map(|name| number(&self.symbols, name))
                .collect()
        };
        let rules = self
            .lefts
            .iter()
            .zip(&self.rights)
            .map(|(left, right)| Rule {
                marked: left.marked,
                left: symbols(&left.names),
                right: match right {
                    Side::Names(names) => Right::Symbols(symbols(names)),
                    Side::Word(word) if word == b"epsilon" => Right::Symbols(Vec::new()),
                    Side::Word(word) => Right::Verdict(number(&self.verdicts, word)),
                },
            })
            .collect();
        Reading {
            set: RuleSet {
                symbols: self.symbols.len() as u8,
                events: self.events as u8,
                verdicts: self.verdicts.len() as u8,
                rules,
            },
            symbols: self.symbols,
            verdicts: self.verdicts,
        }
    }
}

/// Reads a text of any length.
fn read(text: &[u8]) -> Result<Reading, Refused> {
    let mut reader = Reader {
        behind: Behind::Nothing,
        symbols: Vec::new(),
        events: 0,
        verdicts: vec![b"fail".to_vec(), b"succeed".to_vec()],
        lefts: Vec::new(),
        rights: Vec::new(),
    };
    for (place, run) in runs(text) {
        token(run)
            .ok_or(NO_TOKEN)
            .and_then(|token| reader.take(token))
            .map_err(|refusal| Refused { refusal, place })?;
    }
    if reader.behind != Behind::Stop {
        return Err(Refused {
            refusal: MISPLACED,
            place: text.len(),
        });
    }
    Ok(reader.finish())
}

/// What the library's function must give for a text and areas of these lengths.
pub fn read_rules(text: &[u8], image_area: usize, name_area: usize) -> Result<Reading, Refused> {
    if text.len() > MAX_TEXT_BYTES {
        return Err(Refused {
            refusal: LONG_TEXT,
            place: 0,
        });
    }
    if image_area < IMAGE_AREA || name_area < NAME_AREA {
        return Err(Refused {
            refusal: SHORT_TEXT_AREA,
            place: 0,
        });
    }
    read(text)
}

#[cfg(test)]
mod tests {
    use super::*;
    use crate::random::{sample, Habit, Random, Shape};
    use crate::texts::{self, Naming, Spacing};

    const SAMPLE: &[u8] = b"events lock take free . lock take -> held . held free -> #epsilon . \
        take -> #fail .";

    #[test]
    fn sample_text() {
        let reading = read(SAMPLE).unwrap();
        assert_eq!(reading.set, sample());
        assert_eq!(
            reading.symbols,
            [&b"lock"[..], b"take", b"free", b"held"].map(<[u8]>::to_vec)
        );
        assert_eq!(
            reading.verdicts,
            [&b"fail"[..], b"succeed"].map(<[u8]>::to_vec)
        );
        let slots = reading.slots();
        assert_eq!(slots.len(), 1_200);
        assert_eq!(slots[..6], *b"\x04lock\0");
        assert_eq!(slots[25 * 33..][..9], *b"\x07succeed\0");
    }

    #[test]
    fn runs_and_places() {
        assert_eq!(runs(b""), []);
        assert_eq!(runs(b" \r\n"), []);
        assert_eq!(
            runs(b"a\t\tb.\x0b \n->"),
            [(0, &b"a"[..]), (3, b"b.\x0b"), (8, b"->")]
        );
    }

    #[test]
    fn tokens() {
        let name = |name: &[u8]| Some(Token::Name(name.to_vec()));
        let word = |name: &[u8]| Some(Token::Word(name.to_vec()));
        assert_eq!(token(b"aZ_9"), name(b"aZ_9"));
        assert_eq!(token(&[b'a'; 24]), name(&[b'a'; 24]));
        assert_eq!(token(&[b'a'; 25]), None);
        assert_eq!(token(b"#x"), word(b"x"));
        assert_eq!(token(&[b"#", &[b'a'; 24][..]].concat()), word(&[b'a'; 24]));
        assert_eq!(token(&[b"#", &[b'a'; 25][..]].concat()), None);
        assert_eq!(token(b"->"), Some(Token::Arrow));
        assert_eq!(token(b"."), Some(Token::Stop));
        assert_eq!(token(b"^"), Some(Token::Mark));
        for other in [
            "^^", "^a", "a^", "#^", "^.", "^->", "#", "##a", "#9", "#_", "9a", "_a", "-", ">",
            "--", "->>", "->-", "..", "a.", ".a", "a->", "->a", "a#", "#a#", "a-b", "a\u{b}", "\0",
        ] {
            assert_eq!(token(other.as_bytes()), None, "{other}");
        }
    }

    #[test]
    fn refusals_and_places() {
        for (text, refusal, place) in [
            ("", 4, 0),
            (" \n", 4, 2),
            ("event a .", 4, 0),
            ("events . ", 4, 7),
            ("events a ", 4, 9),
            ("events a . a ", 4, 13),
            ("events a . a -> . ", 4, 16),
            ("events a . a -> #x a .", 4, 19),
            ("events a . a -> a #x .", 4, 18),
            ("events a a. a", 3, 9),
            ("events a a a.", 6, 9),
            ("events a . a a a a a a a a a -> a .", 5, 27),
            ("events a . a a a a a a a a #a -> a .", 4, 27),
        ] {
            assert_eq!(
                read(text.as_bytes()),
                Err(Refused { refusal, place }),
                "{text}"
            );
        }
    }

    /// Where a `^` may stand, and what may stand behind it.
    #[test]
    fn marks() {
        let marks = |text: &str| -> Result<Vec<bool>, Refused> {
            let reading = read(text.as_bytes())?;
            Ok(reading.set.rules.iter().map(|rule| rule.marked).collect())
        };
        assert_eq!(marks("events a . ^ a -> #x ."), Ok(vec![true]));
        assert_eq!(marks("events a . ^ a a a a a a a a -> a ."), Ok(vec![true]));
        assert_eq!(
            marks("events a . a -> a . ^ b -> #epsilon . b -> #fail ."),
            Ok(vec![false, true, false])
        );
        let rules = "a -> a . ".repeat(64);
        for (text, refusal, place) in [
            ("^", 4, 0),
            ("^ events a .", 4, 0),
            ("events ^ a .", 4, 7),
            ("events a ^ .", 4, 9),
            ("events a . ^ ", 4, 13),
            ("events a . ^ ^ a -> a .", 4, 13),
            ("events a . ^ -> a .", 4, 13),
            ("events a . ^ . a", 4, 13),
            ("events a . ^ #x .", 4, 13),
            ("events a . ^a -> a .", 3, 11),
            ("events a . ^^ a -> a .", 3, 11),
            ("events a . a ^ -> a .", 4, 13),
            ("events a . a -> ^ a .", 4, 16),
            ("events a . a -> a ^ .", 4, 18),
            ("events a . a -> #x ^ .", 4, 19),
            ("events a . ^ a a a a a a a a a -> a .", 5, 29),
            ("events a . ^ a a a a a a a a ^ -> a .", 4, 29),
            (&format!("events a . {rules}^ a -> a ."), 5, 11 + 64 * 9 + 2),
            (&format!("events a . {rules}^ -> a ."), 4, 11 + 64 * 9 + 2),
            (&format!("events a . {rules}^ "), 4, 11 + 64 * 9 + 2),
        ] {
            assert_eq!(marks(text), Err(Refused { refusal, place }), "{text}");
        }
    }

    /// What is written is read back: the writer knows the answer without this reader.
    #[test]
    fn written_texts_are_read_back() {
        let mut random = Random::new(2);
        for round in 0..2_000 {
            let shape = Shape::ALL[random.below(Shape::ALL.len())];
            let habit = Habit::ALL[random.below(Habit::ALL.len())];
            let set = match round % 2 {
                0 => shape.either(&mut random),
                _ => habit.either(&mut random),
            };
            let naming = Naming::ALL[random.below(Naming::ALL.len())];
            let spacing = Spacing::ALL[random.below(Spacing::ALL.len())];
            let written = texts::write(&mut random, &set, naming, spacing);
            assert_eq!(
                read(&written.text),
                Ok(written.reading),
                "{naming:?} {spacing:?}"
            );
        }
    }
}
