/*!
A writer of rule texts.

It writes a rule set down with names and separators of its choice, and says what a reader must make of
the text. That is found by renumbering the rule set, without reading the text.
*/

use crate::random::Random;
use crate::reader::{Name, Reading};
use crate::{Right, RuleSet, Symbol};

/// How symbols and words are called.
#[derive(Clone, Copy, Debug, PartialEq, Eq)]
pub enum Naming {
    /// One or two bytes.
    Short,
    /// 24 bytes.
    Longest,
    /// Any length.
    Any,
    /// Names that begin with one another, or differ in their last byte or in a capital letter.
    Alike,
    /// Names that mean something elsewhere: `events`, `fail`, `epsilon` and so on, as far as they go.
    Meaning,
}

impl Naming {
    /// Every naming.
    pub const ALL: [Naming; 5] = [
        Naming::Short,
        Naming::Longest,
        Naming::Any,
        Naming::Alike,
        Naming::Meaning,
    ];

    /// `count` different names, none of them in `taken`.
    pub fn names(self, random: &mut Random, count: usize, taken: &[&[u8]]) -> Vec<Name> {
        let mut names: Vec<Name> = Vec::new();
        while names.len() < count {
            let name = self.name(random, &names);
            if !names.contains(&name) && !taken.contains(&&name[..]) {
                names.push(name);
            }
        }
        names
    }

    /// A name beside the names already drawn.
    fn name(self, random: &mut Random, names: &[Name]) -> Name {
        match self {
            Naming::Short => {
                let length = random.within(1, 2);
                any_name(random, length)
            }
            Naming::Longest => any_name(random, 24),
            Naming::Any => {
                let length = random.within(1, 24);
                any_name(random, length)
            }
            Naming::Alike => alike(random, names),
            Naming::Meaning => {
                if random.once_in(4) {
                    return Naming::Short.name(random, names);
                }
                let meaning = [
                    "events", "fail", "succeed", "epsilon", "Events", "event", "eventsx", "fai",
                    "fail_", "FAIL", "succeede", "epsilo", "epsilon0", "Epsilon",
                ];
                meaning[random.below(meaning.len())].into()
            }
        }
    }
}

const LETTERS: &[u8] = b"ABCDEFGHIJKLMNOPQRSTUVWXYZabcdefghijklmnopqrstuvwxyz";
const OTHERS: &[u8] = b"0123456789_";

/// A name of this length.
fn any_name(random: &mut Random, length: usize) -> Name {
    let mut name = vec![LETTERS[random.below(LETTERS.len())]];
    while name.len() < length {
        name.push(later_byte(random));
    }
    name
}

/// A byte that a name may have behind its first.
fn later_byte(random: &mut Random) -> u8 {
    let both = [LETTERS, OTHERS, OTHERS].concat();
    both[random.below(both.len())]
}

/// One of the names made longer, shorter, or other in one byte; or a new one.
fn alike(random: &mut Random, names: &[Name]) -> Name {
    if names.is_empty() {
        let length = random.within(1, 24);
        return any_name(random, length);
    }
    let mut name = names[random.below(names.len())].clone();
    let last = name.len() - 1;
    match random.below(4) {
        0 if last + 1 < 24 => name.push(later_byte(random)),
        1 if last > 0 => name.truncate(last),
        2 => {
            let place = random.within(0, last);
            if name[place].is_ascii_alphabetic() {
                name[place] ^= 0x20;
            }
        }
        _ if last > 0 => name[last] = later_byte(random),
        _ => name[0] = LETTERS[random.below(LETTERS.len())],
    }
    name
}

/// What stands between tokens, and around them all.
#[derive(Clone, Copy, Debug, PartialEq, Eq)]
pub enum Spacing {
    /// One space, nothing around.
    Space,
    /// One separator of any kind, nothing around.
    One,
    /// One to three separators, up to three around.
    Few,
    /// Often many separators.
    Many,
}

impl Spacing {
    /// Every spacing.
    pub const ALL: [Spacing; 4] = [Spacing::Space, Spacing::One, Spacing::Few, Spacing::Many];

    /// Separators; between two tokens at least one.
    pub fn separators(self, random: &mut Random, between: bool) -> Vec<u8> {
        let least = usize::from(between);
        let count = match self {
            Spacing::Space | Spacing::One => least,
            Spacing::Few => random.within(least, 3),
            Spacing::Many if random.once_in(3) => random.within(least, 40),
            Spacing::Many => random.within(least, 2),
        };
        (0..count)
            .map(|_| match self {
                Spacing::Space => b' ',
                _ => b" \t\r\n"[random.below(4)],
            })
            .collect()
    }

    /// The tokens as one text.
    pub fn join<T: AsRef<[u8]>>(self, random: &mut Random, tokens: &[T]) -> Vec<u8> {
        let mut text = self.separators(random, false);
        for (place, token) in tokens.iter().enumerate() {
            if place > 0 {
                text.extend(self.separators(random, true));
            }
            text.extend(token.as_ref());
        }
        text.extend(self.separators(random, false));
        text
    }
}

/// A text, and what a reader must make of it.
#[derive(Clone, Debug)]
pub struct Written {
    /// The text.
    pub text: Vec<u8>,
    /// What it says.
    pub reading: Reading,
}

/// Writes a rule set in range as a text.
pub fn write(random: &mut Random, set: &RuleSet, naming: Naming, spacing: Spacing) -> Written {
    let symbols = naming.names(random, set.symbols.into(), &[]);
    let others = usize::from(set.verdicts) - 2;
    let mut verdicts = vec![b"fail".to_vec(), b"succeed".to_vec()];
    // Words may be called as symbols are.
    let taken: [&[u8]; 3] = [b"fail", b"succeed", b"epsilon"];
    verdicts.extend(if random.once_in(2) {
        let mut names: Vec<Name> = symbols
            .iter()
            .filter(|name| !taken.contains(&&name[..]))
            .take(others)
            .cloned()
            .collect();
        let mut more: Vec<&[u8]> = taken.to_vec();
        more.extend(names.iter().map(|name| &name[..]));
        let rest = Naming::Any.names(random, others - names.len(), &more);
        names.extend(rest);
        names
    } else {
        naming.names(random, others, &taken)
    });
    let tokens = tokens(set, &symbols, &verdicts);
    Written {
        text: spacing.join(random, &tokens),
        reading: renumbered(set, &symbols, &verdicts),
    }
}

/// The tokens of a rule set's text with these names.
pub fn tokens(set: &RuleSet, symbols: &[Name], verdicts: &[Name]) -> Vec<Vec<u8>> {
    let mut tokens = vec![b"events".to_vec()];
    tokens.extend_from_slice(&symbols[..set.events.into()]);
    tokens.push(b".".to_vec());
    for rule in &set.rules {
        let names = |side: &[Symbol]| -> Vec<Name> {
            side.iter()
                .map(|&symbol| symbols[usize::from(symbol)].clone())
                .collect()
        };
        if rule.marked {
            tokens.push(b"^".to_vec());
        }
        tokens.extend(names(&rule.left));
        tokens.push(b"->".to_vec());
        match &rule.right {
            Right::Symbols(right) if right.is_empty() => tokens.push(b"#epsilon".to_vec()),
            Right::Symbols(right) => tokens.extend(names(right)),
            Right::Verdict(verdict) => {
                tokens.push([b"#", &verdicts[usize::from(*verdict)][..]].concat());
            }
        }
        tokens.push(b".".to_vec());
    }
    tokens
}

/// The tokens with one to three `^` more: where a rule begins, where a `^` stands, or anywhere.
pub fn with_more_marks(random: &mut Random, tokens: &[Vec<u8>]) -> Vec<Vec<u8>> {
    let mut tokens = tokens.to_vec();
    for _ in 0..random.within(1, 3) {
        let begins: Vec<usize> = (1..=tokens.len())
            .filter(|&place| [&b"."[..], b"^"].contains(&&tokens[place - 1][..]))
            .collect();
        let place = match begins.len() {
            count if count > 0 && random.once_in(2) => begins[random.below(count)],
            _ => random.within(0, tokens.len()),
        };
        tokens.insert(place, b"^".to_vec());
    }
    tokens
}

/// The rule set with symbols and verdicts numbered as they first appear, and without those that do not.
fn renumbered(set: &RuleSet, symbols: &[Name], verdicts: &[Name]) -> Reading {
    // The old numbers in the order of the new ones.
    let mut seen_symbols: Vec<u8> = (0..set.events).collect();
    let mut seen_verdicts = vec![0, 1];
    let number = |seen: &mut Vec<u8>, old: u8| -> u8 {
        if !seen.contains(&old) {
            seen.push(old);
        }
        seen.iter().position(|&other| other == old).expect("seen") as u8
    };
    let mut renumber = |side: &[Symbol]| -> Vec<Symbol> {
        side.iter()
            .map(|&symbol| number(&mut seen_symbols, symbol))
            .collect()
    };
    let mut rules = set.rules.clone();
    for rule in &mut rules {
        rule.left = renumber(&rule.left);
        if let Right::Symbols(right) = &mut rule.right {
            *right = renumber(right);
        }
    }
    for rule in &mut rules {
        if let Right::Verdict(verdict) = &mut rule.right {
            *verdict = number(&mut seen_verdicts, *verdict);
        }
    }
    let names = |seen: &[u8], names: &[Name]| -> Vec<Name> {
        seen.iter()
            .map(|&old| names[usize::from(old)].clone())
            .collect()
    };
    Reading {
        symbols: names(&seen_symbols, symbols),
        verdicts: names(&seen_verdicts, verdicts),
        set: RuleSet {
            symbols: seen_symbols.len() as u8,
            events: set.events,
            verdicts: seen_verdicts.len() as u8,
            rules,
        },
    }
}
