/*!
Pseudo-random numbers, and rule sets made of them.

Everything here depends on the seed alone, so a failing case comes back in the next run.
*/

use crate::{Right, Rule, RuleSet, Symbol};

/// SplitMix64, the generator of Steele, Lea and Flood.
#[derive(Clone, Debug)]
pub struct Random {
    state: u64,
}

impl Random {
    /// A generator that begins at this seed.
    pub fn new(seed: u64) -> Random {
        Random { state: seed }
    }

    /// The next 64 bits.
    pub fn bits(&mut self) -> u64 {
        self.state = self.state.wrapping_add(0x9e37_79b9_7f4a_7c15);
        let mut z = self.state;
        z = (z ^ (z >> 30)).wrapping_mul(0xbf58_476d_1ce4_e5b9);
        z = (z ^ (z >> 27)).wrapping_mul(0x94d0_49bb_1331_11eb);
        z ^ (z >> 31)
    }

    /// A number below `bound`, which is not 0.
    pub fn below(&mut self, bound: usize) -> usize {
        // The bounds here are far below 2^64, so the remainder is even enough.
        (self.bits() % bound as u64) as usize
    }

    /// A number from `low` to `high`, both included.
    pub fn within(&mut self, low: usize, high: usize) -> usize {
        low + self.below(high - low + 1)
    }

    /// A byte.
    pub fn byte(&mut self) -> u8 {
        self.bits() as u8
    }

    /// A word.
    pub fn word(&mut self) -> u16 {
        self.bits() as u16
    }

    /// True once in `times`.
    pub fn once_in(&mut self, times: usize) -> bool {
        self.below(times) == 0
    }

    /// A string of `length` symbols below `symbols`.
    pub fn string(&mut self, length: usize, symbols: u8) -> Vec<Symbol> {
        (0..length)
            .map(|_| self.below(symbols.into()) as Symbol)
            .collect()
    }

    /// A right side of any kind and length.
    pub fn right(&mut self, symbols: u8, verdicts: u8) -> Right {
        if self.once_in(3) {
            Right::Verdict(self.below(verdicts.into()) as u8)
        } else {
            let length = self.within(0, 8);
            Right::Symbols(self.string(length, symbols))
        }
    }

    /// A rule set of these left sides over `symbols` symbols, without marks; everything else is drawn.
    pub fn with_left_sides(&mut self, symbols: u8, lefts: Vec<Vec<Symbol>>) -> RuleSet {
        let verdicts = self.within(2, 16) as u8;
        RuleSet {
            symbols,
            events: self.within(1, symbols.into()) as u8,
            verdicts,
            rules: lefts
                .into_iter()
                .map(|left| Rule {
                    marked: false,
                    left,
                    right: self.right(symbols, verdicts),
                })
                .collect(),
        }
    }
}

/// A kind of rule sets to draw from.
#[derive(Clone, Copy, Debug, PartialEq, Eq)]
pub enum Shape {
    /// A few rules over any number of symbols.
    Any,
    /// Left sides over two symbols, so that they overlap a lot.
    TwoSymbols,
    /// Left sides that are pieces of one string: nested, and each other's prefixes and suffixes.
    Nested,
    /// Few left sides, each of several rules.
    Equal,
    /// One symbol: left sides differ in length alone.
    OneSymbol,
    /// No rules.
    NoRules,
}

impl Shape {
    /// Every shape.
    pub const ALL: [Shape; 6] = [
        Shape::Any,
        Shape::TwoSymbols,
        Shape::Nested,
        Shape::Equal,
        Shape::OneSymbol,
        Shape::NoRules,
    ];

    /// A rule set of this shape, without marks or with.
    pub fn either(self, random: &mut Random) -> RuleSet {
        let set = self.rule_set(random);
        either(random, set)
    }

    /// A rule set of this shape with marks, if it has rules.
    pub fn with_marks(self, random: &mut Random) -> RuleSet {
        let set = self.rule_set(random);
        with_marks(random, set)
    }

    /// A rule set of this shape, without marks, small enough that its table is quickly computed.
    pub fn rule_set(self, random: &mut Random) -> RuleSet {
        let symbols = random.within(1, 32) as u8;
        match self {
            Shape::Any => {
                let rules = random.within(1, 12);
                let lefts = (0..rules)
                    .map(|_| {
                        let length = random.within(1, 8);
                        random.string(length, symbols)
                    })
                    .collect();
                random.with_left_sides(symbols, lefts)
            }
            Shape::TwoSymbols => {
                let symbols = random.within(2, 4) as u8;
                let rules = random.within(1, 16);
                let lefts = (0..rules)
                    .map(|_| {
                        let length = random.within(1, 8);
                        random.string(length, 2)
                    })
                    .collect();
                random.with_left_sides(symbols, lefts)
            }
            Shape::Nested => {
                let symbols = random.within(1, 6) as u8;
                let whole = random.string(12, symbols);
                let rules = random.within(1, 16);
                let lefts = (0..rules)
                    .map(|_| {
                        let length = random.within(1, 8);
                        let start = random.within(0, whole.len() - length);
                        whole[start..start + length].to_vec()
                    })
                    .collect();
                random.with_left_sides(symbols, lefts)
            }
            Shape::Equal => {
                let few: Vec<Vec<Symbol>> = (0..3)
                    .map(|_| {
                        let length = random.within(1, 4);
                        random.string(length, symbols.min(3))
                    })
                    .collect();
                let rules = random.within(2, 64);
                let lefts = (0..rules)
                    .map(|_| few[random.below(few.len())].clone())
                    .collect();
                random.with_left_sides(symbols, lefts)
            }
            Shape::OneSymbol => {
                let rules = random.within(1, 10);
                let lefts = (0..rules).map(|_| vec![0; random.within(1, 8)]).collect();
                random.with_left_sides(1, lefts)
            }
            Shape::NoRules => random.with_left_sides(symbols, Vec::new()),
        }
    }
}

/// What the rules of a set do when they run.
///
/// The rule sets have few symbols and short left sides, so that strings drawn at random match often.
#[derive(Clone, Copy, Debug, PartialEq, Eq)]
pub enum Habit {
    /// Right sides are longer than left sides.
    Grow,
    /// Right sides are as long as left sides, and often left sides themselves.
    Loop,
    /// Right sides are beginnings of left sides, so that matches span the cut.
    Chain,
    /// Right sides are shorter than left sides.
    Shrink,
    /// Verdicts, for symbols that are put in by other rules.
    Judge,
    /// Any of these, rule by rule.
    Mixed,
}

impl Habit {
    /// Every habit.
    pub const ALL: [Habit; 6] = [
        Habit::Grow,
        Habit::Loop,
        Habit::Chain,
        Habit::Shrink,
        Habit::Judge,
        Habit::Mixed,
    ];

    /// A rule set with this habit, without marks or with.
    pub fn either(self, random: &mut Random) -> RuleSet {
        let set = self.rule_set(random);
        either(random, set)
    }

    /// A rule set with this habit and with marks.
    pub fn with_marks(self, random: &mut Random) -> RuleSet {
        let set = self.rule_set(random);
        with_marks(random, set)
    }

    /// A rule set with this habit, without marks.
    pub fn rule_set(self, random: &mut Random) -> RuleSet {
        let symbols = random.within(1, 5) as u8;
        let events = random.within(symbols.div_ceil(2).into(), symbols.into()) as u8;
        let verdicts = random.within(2, 16) as u8;
        let count = random.within(1, 10);
        let lefts: Vec<Vec<Symbol>> = (0..count)
            .map(|_| {
                let longest = if random.once_in(4) { 8 } else { 3 };
                let length = random.within(1, longest);
                random.string(length, symbols)
            })
            .collect();
        let rules = lefts
            .iter()
            .map(|left| Rule {
                marked: false,
                left: left.clone(),
                right: self.right(random, symbols, verdicts, left, &lefts),
            })
            .collect();
        let set = RuleSet {
            symbols,
            events,
            verdicts,
            rules,
        };
        match self {
            Habit::Judge => judge(random, set),
            _ => set,
        }
    }

    /// The right side of a rule with this left side, which is one of `lefts`.
    fn right(
        self,
        random: &mut Random,
        symbols: u8,
        verdicts: u8,
        left: &[Symbol],
        lefts: &[Vec<Symbol>],
    ) -> Right {
        // Whatever the habit, a few rules are verdicts.
        if random.once_in(7) {
            return Right::Verdict(random.below(verdicts.into()) as u8);
        }
        let other = &lefts[random.below(lefts.len())];
        match self {
            Habit::Grow => {
                let length = random.within((left.len() + 1).min(8), 8);
                Right::Symbols(random.string(length, symbols))
            }
            Habit::Loop => {
                if other.len() == left.len() && random.once_in(2) {
                    Right::Symbols(other.clone())
                } else {
                    Right::Symbols(random.string(left.len(), symbols))
                }
            }
            Habit::Chain => {
                let length = random.within(0, other.len());
                let mut right = random.string(1, symbols);
                right.truncate(random.below(2));
                right.extend(&other[..length]);
                right.truncate(8);
                Right::Symbols(right)
            }
            Habit::Shrink => {
                let length = random.below(left.len());
                Right::Symbols(random.string(length, symbols))
            }
            Habit::Judge => {
                let length = random.within(1, 2);
                Right::Symbols(random.string(length, symbols))
            }
            Habit::Mixed => {
                let habit = Habit::ALL[random.below(Habit::ALL.len() - 1)];
                habit.right(random, symbols, verdicts, left, lefts)
            }
        }
    }
}

/// The rule set with a symbol more, which is no event and ends some right sides, and with verdicts for
/// strings that hold it.
fn judge(random: &mut Random, mut set: RuleSet) -> RuleSet {
    let made = set.symbols;
    set.symbols += 1;
    for rule in &mut set.rules {
        match &mut rule.right {
            Right::Symbols(right) if random.once_in(2) && right.len() < 8 => right.push(made),
            _ => {}
        }
    }
    for _ in 0..random.within(1, 3) {
        let length = random.within(0, 2);
        let mut left = random.string(length, set.symbols);
        left.insert(random.within(0, length), made);
        let verdict = random.below(set.verdicts.into()) as u8;
        let rule = Rule {
            marked: false,
            left,
            right: Right::Verdict(verdict),
        };
        set.rules.insert(random.within(0, set.rules.len()), rule);
    }
    set
}

/// A rule set as it is, or with marks.
fn either(random: &mut Random, set: RuleSet) -> RuleSet {
    if random.once_in(2) {
        with_marks(random, set)
    } else {
        set
    }
}

/// The rule set with marks on some rules, on most or on all, and with a few rules more: their left sides
/// are others of the set, or these with a symbol more or fewer at either end, marked or not. At least one
/// rule is marked, if there are rules.
pub fn with_marks(random: &mut Random, mut set: RuleSet) -> RuleSet {
    if set.rules.is_empty() {
        return set;
    }
    // Out of four rules so many are marked.
    let marked = random.within(1, 4);
    for rule in &mut set.rules {
        rule.marked = random.below(4) < marked;
    }
    for _ in 0..random.within(0, 4).min(64 - set.rules.len()) {
        let mut rule = set.rules[random.below(set.rules.len())].clone();
        let more = random.below(set.symbols.into()) as Symbol;
        match random.below(6) {
            0 if rule.left.len() < 8 => rule.left.push(more),
            1 if rule.left.len() < 8 => rule.left.insert(0, more),
            2 if rule.left.len() > 1 => drop(rule.left.pop()),
            3 if rule.left.len() > 1 => drop(rule.left.remove(0)),
            _ => {}
        }
        rule.marked = random.once_in(2);
        set.rules.insert(random.within(0, set.rules.len()), rule);
    }
    if !set.has_mark() {
        let rule = random.below(set.rules.len());
        set.rules[rule].marked = true;
    }
    set
}

/// 64 rules of 8 symbols, the left sides over the first `used` of `symbols` symbols.
pub fn full(random: &mut Random, symbols: u8, used: u8) -> RuleSet {
    let lefts = (0..64).map(|_| random.string(8, used)).collect();
    random.with_left_sides(symbols, lefts)
}

/// The sample of document 01: lock take → held; held free → empty; take → fail.
pub fn sample() -> RuleSet {
    let (lock, take, free, held) = (0, 1, 2, 3);
    let rule = |left: &[Symbol], right| Rule {
        marked: false,
        left: left.to_vec(),
        right,
    };
    RuleSet {
        symbols: 4,
        events: 3,
        verdicts: 2,
        rules: vec![
            rule(&[lock, take], Right::Symbols(vec![held])),
            rule(&[held, free], Right::Symbols(vec![])),
            rule(&[take], Right::Verdict(0)),
        ],
    }
}

/// A rule set with the longest image and the largest table without marks: 32 symbols and 64 rules of 8
/// symbols that have no prefix in common but the first symbol, which two rules must share.
pub fn largest() -> RuleSet {
    let rules = (0..64)
        .map(|rule: u8| {
            let string = |salt: u8| -> Vec<Symbol> {
                (0..8)
                    .map(|place: u8| match place {
                        0 => rule % 32,
                        1 => rule / 32 + 2 * (rule % 16),
                        _ => (rule % 32 + place * (rule / 32 + salt)) % 32,
                    })
                    .collect()
            };
            Rule {
                marked: false,
                left: string(1),
                right: Right::Symbols(string(5)),
            }
        })
        .collect();
    RuleSet {
        symbols: 32,
        events: 32,
        verdicts: 16,
        rules,
    }
}

/// A rule set with the longest image and the largest table there is: the rules of [`largest`], of which
/// two begin with each symbol. One of these is marked and the other is not, so that they share no prefix.
pub fn largest_with_marks() -> RuleSet {
    let mut set = largest();
    for rule in &mut set.rules[..32] {
        rule.marked = true;
    }
    set
}

/// 64 different left sides of 8 symbols over the first two of `symbols` symbols. Each begins with
/// six symbols of its own and goes on with the first two of them turned round, so that nearly every
/// prefix ends in a long prefix of other left sides.
pub fn overlapping(symbols: u8) -> RuleSet {
    let rules = (0..64)
        .map(|rule: u8| {
            let mut left: Vec<Symbol> = (0..6).map(|place| rule >> place & 1).collect();
            left.extend([left[1], left[0]]);
            Rule {
                marked: false,
                left,
                right: Right::Symbols(vec![0; 8]),
            }
        })
        .collect();
    RuleSet {
        symbols,
        events: 2,
        verdicts: 2,
        rules,
    }
}
