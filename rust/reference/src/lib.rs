/*!
Rule texts, rule images, matching tables, the plain rewriter and the monitor, computed naively.

This is the model that the tests compare the library with. It follows the words of document 01, and of
the start mark's request in document 02, one by one: states are strings, a next state is found by trying
every suffix, a match by trying every rule. There is no trie and there are no failure states here, and
nothing is shared with the library, so that a mistake in the one is not a mistake in the other.

* [`RuleSet`] and [`Rule`]: the rules, as strings of symbols.
* [`encode`], [`parse`]: rule sets to images and back.
* [`table`], [`compile`], [`check_table`]: what the library's functions must give.
* [`reader`]: the reader of rule texts.
* [`rewriter`]: the plain rewriter.
* [`monitor`]: the monitor's operations.
* [`watch`]: the program.
* [`random`]: a generator of pseudo-random numbers and of rule sets.
* [`texts`]: a writer of rule texts.
*/

#![forbid(unsafe_code)]
#![deny(missing_docs)]

pub mod monitor;
pub mod random;
pub mod reader;
pub mod rewriter;
pub mod texts;
pub mod watch;

/// A symbol: a number below the number of symbols.
pub type Symbol = u8;

/// The start mark in the strings of a table's states, where it counts as a symbol that stands before the
/// string. It is no symbol of a rule set, and no string that is held or rewritten has it.
pub const MARK: Symbol = Symbol::MAX;

/// Refusal 7: the image breaks the layout or a range.
pub const BAD_IMAGE: u32 = 7;
/// Refusal 8: the table area is shorter than the words needed.
pub const SHORT_AREA: u32 = 8;
/// Refusal 9: the table does not begin with the words that compile gives.
pub const OTHER_TABLE: u32 = 9;

/// A right side: what replaces the symbols of the left side.
#[derive(Clone, Debug, PartialEq, Eq)]
pub enum Right {
    /// A string of symbols.
    Symbols(Vec<Symbol>),
    /// A verdict.
    Verdict(u8),
}

/// A rule: a left side, marked or not, and a right side.
#[derive(Clone, Debug, PartialEq, Eq)]
pub struct Rule {
    /// Whether the left side has the start mark: then it occurs only at the string's first symbol.
    pub marked: bool,
    /// The symbols of the left side.
    pub left: Vec<Symbol>,
    /// The right side.
    pub right: Right,
}

impl Rule {
    /// The left side as the table has it: the mark, if there is one, and the symbols.
    pub fn left_with_mark(&self) -> Vec<Symbol> {
        let mark: &[Symbol] = if self.marked { &[MARK] } else { &[] };
        [mark, &self.left].concat()
    }
}

/// An unmarked rule with a string as its right side.
pub fn string(left: &[Symbol], right: &[Symbol]) -> Rule {
    Rule {
        marked: false,
        left: left.to_vec(),
        right: Right::Symbols(right.to_vec()),
    }
}

/// An unmarked rule with a verdict as its right side.
pub fn verdict(left: &[Symbol], verdict: u8) -> Rule {
    Rule {
        marked: false,
        left: left.to_vec(),
        right: Right::Verdict(verdict),
    }
}

/// The rule with a mark.
pub fn marked(rule: Rule) -> Rule {
    Rule {
        marked: true,
        ..rule
    }
}

/// A rule set with its numbers of symbols, events and verdicts.
#[derive(Clone, Debug, PartialEq, Eq)]
pub struct RuleSet {
    /// S, the number of symbols.
    pub symbols: u8,
    /// E, the number of events: the first of the symbols.
    pub events: u8,
    /// V, the number of verdicts.
    pub verdicts: u8,
    /// The rules, in order.
    pub rules: Vec<Rule>,
}

impl RuleSet {
    /// Whether a rule is marked.
    pub fn has_mark(&self) -> bool {
        self.rules.iter().any(|rule| rule.marked)
    }

    /// Whether every number is in its range.
    pub fn in_range(&self) -> bool {
        let symbols_in_range = |string: &[Symbol]| string.iter().all(|&a| a < self.symbols);
        (1..=32).contains(&self.symbols)
            && (1..=self.symbols).contains(&self.events)
            && (2..=16).contains(&self.verdicts)
            && self.rules.len() <= 64
            && self.rules.iter().all(|rule| {
                (1..=8).contains(&rule.left.len())
                    && symbols_in_range(&rule.left)
                    && match &rule.right {
                        Right::Symbols(right) => right.len() <= 8 && symbols_in_range(right),
                        Right::Verdict(verdict) => *verdict < self.verdicts,
                    }
            })
    }
}

/// The image of a rule set, in range or not.
///
/// # Panics
///
/// If a length does not fit in its byte.
pub fn encode(set: &RuleSet) -> Vec<u8> {
    let byte = |length: usize| u8::try_from(length).expect("a length that fits in a byte");
    let mut image = vec![set.symbols, byte(set.rules.len()), set.verdicts, set.events];
    for rule in &set.rules {
        let (kind, number) = match &rule.right {
            Right::Symbols(right) => (0, byte(right.len())),
            Right::Verdict(verdict) => (1, *verdict),
        };
        image.extend([byte(rule.left.len()), kind, number, rule.marked.into()]);
    }
    for rule in &set.rules {
        image.extend(&rule.left);
        if let Right::Symbols(right) = &rule.right {
            image.extend(right);
        }
    }
    image
}

/// The rule set whose image this is, or refusal 7.
pub fn parse(image: &[u8]) -> Result<RuleSet, u32> {
    match read_layout(image) {
        Some(set) if set.in_range() => Ok(set),
        _ => Err(BAD_IMAGE),
    }
}

/// The rule set that the image lays out, whatever its ranges.
fn read_layout(image: &[u8]) -> Option<RuleSet> {
    let mut rest = image;
    let header = take(&mut rest, 4)?;
    let contents: Vec<&[u8]> = (0..header[1])
        .map(|_| take(&mut rest, 4))
        .collect::<Option<_>>()?;
    let mut rules = Vec::new();
    for entry in contents {
        let left = take(&mut rest, entry[0].into())?.to_vec();
        let right = match entry[1] {
            0 => Right::Symbols(take(&mut rest, entry[2].into())?.to_vec()),
            1 => Right::Verdict(entry[2]),
            _ => return None,
        };
        let marked = match entry[3] {
            0 => false,
            1 => true,
            _ => return None,
        };
        rules.push(Rule {
            marked,
            left,
            right,
        });
    }
    if !rest.is_empty() {
        return None;
    }
    Some(RuleSet {
        symbols: header[0],
        events: header[3],
        verdicts: header[2],
        rules,
    })
}

/// Takes the first `count` bytes off `rest`, if it has as many.
fn take<'a>(rest: &mut &'a [u8], count: usize) -> Option<&'a [u8]> {
    if rest.len() < count {
        return None;
    }
    let (taken, left) = rest.split_at(count);
    *rest = left;
    Some(taken)
}

/// The states' strings in the order of their numbers: with a marked rule the mark alone; the empty
/// string; then each prefix of a left side, rule by rule, short before long, when it is new.
pub fn states(set: &RuleSet) -> Vec<Vec<Symbol>> {
    let mut states = if set.has_mark() {
        vec![vec![MARK], vec![]]
    } else {
        vec![vec![]]
    };
    for rule in &set.rules {
        let left = rule.left_with_mark();
        for length in 1..=left.len() {
            let prefix = left[..length].to_vec();
            if !states.contains(&prefix) {
                states.push(prefix);
            }
        }
    }
    states
}

/// The next state: the longest suffix of `string` with `symbol` added that is a state.
fn next_state(states: &[Vec<Symbol>], string: &[Symbol], symbol: Symbol) -> usize {
    let mut read = string.to_vec();
    read.push(symbol);
    (0..=read.len())
        .find_map(|start| states.iter().position(|state| *state == read[start..]))
        .expect("the empty string is a state")
}

/// The match word: 1 + the rule with the longest of these left sides that is a suffix of `string`, the
/// lowest rule among equals; 0 if there is none. A mark counts, so a marked left side comes before the
/// same symbols without a mark.
fn match_word(lefts: &[Vec<Symbol>], string: &[Symbol]) -> usize {
    for length in (1..=string.len()).rev() {
        let suffix = &string[string.len() - length..];
        if let Some(rule) = lefts.iter().position(|left| left == suffix) {
            return 1 + rule;
        }
    }
    0
}

/// The number of words of the rule set's table.
pub fn table_len(set: &RuleSet) -> usize {
    let n = states(set).len();
    2 + n + n * usize::from(set.symbols)
}

/// The table of a rule set.
pub fn table(set: &RuleSet) -> Vec<u16> {
    let states = states(set);
    let word = |number: usize| u16::try_from(number).expect("a number that fits in a word");
    let mut table = vec![word(states.len()), set.symbols.into()];
    let lefts: Vec<Vec<Symbol>> = set.rules.iter().map(Rule::left_with_mark).collect();
    for string in &states {
        table.push(word(match_word(&lefts, string)));
    }
    for string in &states {
        for symbol in 0..set.symbols {
            table.push(word(next_state(&states, string, symbol)));
        }
    }
    table
}

/// The words that compile writes into an area of `area` words, or its refusal.
pub fn compile(image: &[u8], area: usize) -> Result<Vec<u16>, u32> {
    let set = parse(image)?;
    if area < table_len(&set) {
        return Err(SHORT_AREA);
    }
    Ok(table(&set))
}

/// Whether `words` begins with the table of the image, or the refusal that says why not.
pub fn check_table(image: &[u8], words: &[u16]) -> Result<(), u32> {
    let set = parse(image)?;
    if words.starts_with(&table(&set)) {
        Ok(())
    } else {
        Err(OTHER_TABLE)
    }
}

#[cfg(test)]
mod tests {
    use super::*;

    #[test]
    fn sample() {
        let set = random::sample();
        let image = encode(&set);
        assert_eq!(image.len(), 22);
        assert_eq!(parse(&image), Ok(set.clone()));
        assert_eq!(states(&set).len(), 6);
        assert_eq!(table(&set).len(), 32);
        assert_eq!(compile(&image, 31), Err(SHORT_AREA));
        assert_eq!(compile(&image, 32), Ok(table(&set)));
    }

    /// b a a c → fail; a a → empty: state `b a a` matches the second rule.
    #[test]
    fn a_match_inside_a_longer_left_side() {
        let (a, b, c) = (0, 1, 2);
        let set = RuleSet {
            symbols: 3,
            events: 3,
            verdicts: 2,
            rules: vec![verdict(&[b, a, a, c], 0), string(&[a, a], &[])],
        };
        // States: 0 empty, 1 b, 2 ba, 3 baa, 4 baac, 5 a, 6 aa.
        let words = [
            7, 3, //
            0, 0, 0, 2, 1, 0, 2, //
            5, 1, 0, //
            2, 1, 0, //
            3, 1, 0, //
            6, 1, 4, //
            5, 1, 0, //
            6, 1, 0, //
            6, 1, 0, //
        ];
        assert_eq!(table(&set), words);
    }

    /// a → fail; a → succeed: the lowest of equal rules.
    #[test]
    fn equal_left_sides() {
        let set = RuleSet {
            symbols: 1,
            events: 1,
            verdicts: 2,
            rules: vec![verdict(&[0], 0), verdict(&[0], 1)],
        };
        assert_eq!(table(&set), [2, 1, 0, 1, 1, 1]);
    }

    /// a b c; b c; c: the longest left side, whatever its rule's number.
    #[test]
    fn the_longest_left_side() {
        let rules = [&[2][..], &[1, 2], &[0, 1, 2]];
        let set = RuleSet {
            symbols: 3,
            events: 1,
            verdicts: 2,
            rules: rules.iter().map(|left| verdict(left, 0)).collect(),
        };
        // States: 0 empty, 1 c, 2 b, 3 bc, 4 a, 5 ab, 6 abc.
        assert_eq!(table(&set)[2..9], [0, 1, 0, 2, 0, 0, 3]);
    }

    #[test]
    fn no_rules() {
        let set = RuleSet {
            symbols: 3,
            events: 2,
            verdicts: 4,
            rules: Vec::new(),
        };
        assert_eq!(encode(&set), [3, 0, 4, 2]);
        assert_eq!(table(&set), [1, 3, 0, 0, 0, 0]);
    }

    #[test]
    fn ranges() {
        let good = [2, 1, 2, 1, 1, 0, 1, 0, 0, 1];
        assert!(parse(&good).is_ok());
        let damages = [
            (0, 0),  // no symbols
            (0, 33), // too many
            (0, 1),  // a body's symbol is not below S
            (1, 0),  // the entry would follow the image
            (2, 1),
            (2, 17),
            (3, 0),
            (3, 3), // more events than symbols
            (4, 0),
            (4, 2), // the body is too short
            (5, 1), // a verdict has no right symbols
            (5, 2), // no such kind
            (6, 0), // the body is too long
            (7, 2), // neither marked nor unmarked
            (7, 255),
            (8, 2),
            (9, 2),
        ];
        for (place, value) in damages {
            let mut image = good;
            image[place] = value;
            assert_eq!(parse(&image), Err(BAD_IMAGE), "byte {place} set to {value}");
        }
    }

    #[test]
    fn largest() {
        let set = random::largest();
        assert!(set.in_range());
        assert_eq!(encode(&set).len(), 1_284);
        assert_eq!(states(&set).len(), 481);
        assert_eq!(table_len(&set), 15_875);
        let set = random::largest_with_marks();
        assert!(set.in_range());
        assert_eq!(encode(&set).len(), 1_284);
        assert_eq!(states(&set).len(), 514);
        assert_eq!(table_len(&set), 16_964);
    }

    /// The sample that document 02 reissues, with `^ take` and `held take` for its ban: its numbers there
    /// are 28 bytes, 8 states and 42 words.
    #[test]
    fn reissued_sample() {
        let (lock, take, free, held) = (0, 1, 2, 3);
        let mut set = random::sample();
        set.rules[2] = marked(verdict(&[take], 0));
        set.rules.push(verdict(&[held, take], 0));
        let image = [
            4, 4, 2, 3, //
            2, 0, 1, 0, //
            2, 0, 0, 0, //
            1, 1, 0, 1, //
            2, 1, 0, 0, //
            lock, take, held, //
            held, free, //
            take, //
            held, take, //
        ];
        assert_eq!(encode(&set), image);
        assert_eq!(image.len(), 28);
        assert_eq!(parse(&image), Ok(set.clone()));
        // States: 0 ^, 1 empty, 2 lock, 3 lock take, 4 held, 5 held free, 6 ^ take, 7 held take.
        let words = [
            8, 4, //
            0, 0, 0, 1, 0, 2, 3, 4, //
            2, 6, 1, 4, //
            2, 1, 1, 4, //
            2, 3, 1, 4, //
            2, 1, 1, 4, //
            2, 7, 5, 4, //
            2, 1, 1, 4, //
            2, 1, 1, 4, //
            2, 1, 1, 4, //
        ];
        assert_eq!(words.len(), 42);
        assert_eq!(table(&set), words);
    }

    /// a b; ^ a b; b: the first rule has no mark, and the states are numbered by rules all the same.
    #[test]
    fn a_late_mark() {
        let (a, b) = (0, 1);
        let set = RuleSet {
            symbols: 2,
            events: 2,
            verdicts: 2,
            rules: vec![
                verdict(&[a, b], 0),
                marked(verdict(&[a, b], 1)),
                verdict(&[b], 0),
            ],
        };
        let strings = [
            vec![MARK],
            vec![],
            vec![a],
            vec![a, b],
            vec![MARK, a],
            vec![MARK, a, b],
            vec![b],
        ];
        assert_eq!(states(&set), strings);
        // The marked rule where its mark has been read, and elsewhere the rule that begins first.
        assert_eq!(table(&set)[2..9], [0, 0, 0, 1, 0, 2, 3]);
        assert_eq!(table(&set)[9..11], [4, 6]);
        assert_eq!(table(&set)[11..13], [2, 6]);
        assert_eq!(table(&set)[17..19], [2, 5]);
    }

    /// The table by another way: a state is a pair of a string and whether the mark stands before it, a next
    /// state is the longest of all states that end what is read, and a match is the plain rewriter's choice
    /// among the occurrences that end there.
    #[test]
    fn tables_by_another_way() {
        let mut random = random::Random::new(5);
        let (mut with_marks, mut inherited) = (0, 0);
        for round in 0..3_000 {
            let shape = random::Shape::ALL[round % random::Shape::ALL.len()];
            let set = match round % 4 {
                0 => shape.rule_set(&mut random),
                _ => shape.with_marks(&mut random),
            };
            let words = table(&set);
            let mut pairs: Vec<(bool, Vec<Symbol>)> = Vec::new();
            if set.has_mark() {
                pairs.push((true, vec![]));
                with_marks += 1;
            }
            pairs.push((false, vec![]));
            for rule in &set.rules {
                for length in 1..=rule.left.len() {
                    let pair = (rule.marked, rule.left[..length].to_vec());
                    if !pairs.contains(&pair) {
                        pairs.push(pair);
                    }
                }
            }
            let (n, s) = (pairs.len(), usize::from(set.symbols));
            assert_eq!(words[..2], [n as u16, s as u16]);
            assert_eq!(words.len(), 2 + n + n * s);
            for (q, (start, string)) in pairs.iter().enumerate() {
                // In a string that goes on before `string` a marked left side does not occur here.
                let before: &[Symbol] = if *start { &[] } else { &[0] };
                let whole = [before, string].concat();
                let ends = |found: &rewriter::Occurrence| {
                    found.end == whole.len() && found.begin >= before.len()
                };
                let chosen = rewriter::occurrences(&set, &whole)
                    .into_iter()
                    .filter(ends)
                    .min_by_key(|found| (found.begin, !set.rules[found.rule].marked, found.rule));
                let word = chosen.map_or(0, |found| 1 + found.rule as u16);
                assert_eq!(words[2 + q], word, "{set:?}");
                let own = |rule: &Rule| rule.left == *string && rule.marked == *start;
                inherited += usize::from(word != 0 && !set.rules.iter().any(own));
                for symbol in 0..set.symbols {
                    let read = [&string[..], &[symbol]].concat();
                    let next = (0..n)
                        .filter(|&p| match pairs[p].0 {
                            true => *start && pairs[p].1 == read,
                            false => read.ends_with(&pairs[p].1),
                        })
                        .max_by_key(|&p| (pairs[p].1.len(), pairs[p].0));
                    let word = words[2 + n + q * s + usize::from(symbol)];
                    assert_eq!(Some(word.into()), next, "{set:?}");
                }
            }
        }
        assert!(
            with_marks > 1_500 && inherited > 1_500,
            "{with_marks} {inherited}"
        );
    }

    #[test]
    fn generated_rule_sets_are_read_back() {
        let mut random = random::Random::new(1);
        for _ in 0..2_000 {
            for shape in random::Shape::ALL {
                let set = shape.rule_set(&mut random);
                let with_marks = shape.with_marks(&mut random);
                assert!(!set.has_mark());
                assert_eq!(with_marks.has_mark(), shape != random::Shape::NoRules);
                for set in [set, with_marks] {
                    assert!(set.in_range(), "{shape:?}: {set:?}");
                    assert_eq!(parse(&encode(&set)), Ok(set));
                }
            }
            for habit in random::Habit::ALL {
                for set in [habit.rule_set(&mut random), habit.with_marks(&mut random)] {
                    assert!(set.in_range(), "{habit:?}: {set:?}");
                    assert_eq!(parse(&encode(&set)), Ok(set));
                }
            }
        }
    }
}
