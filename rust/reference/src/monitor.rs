/*!
The monitor, computed naively.

A [`State`] is two strings and perhaps a verdict. A step builds the next state anew, and finds its
match by trying every left side at the end of the settled string. Head and areas are a [`Memory`]:
they are as described if and only if they are those that the state read from them would be laid out
to, so the description of document 01 stands here once, in [`State::lay_out`].

[`fresh`], [`offer`], [`go_on`] and [`batch`] give everything that the library's functions must give.
They change nothing: each returns what the caller's memory must be afterwards.
*/

use crate::rewriter::occurrences;
use crate::{parse, table, Right, RuleSet, Symbol, OTHER_TABLE};

/// Refusal 10: an area of another length.
pub const OTHER_LENGTH: u32 = 10;
/// Refusal 11: head and areas are not as described.
pub const NOT_DESCRIBED: u32 = 11;
/// Refusal 12: not an event.
pub const NO_EVENT: u32 = 12;
/// Refusal 13: fuel above 65,535.
pub const TOO_MUCH_FUEL: u32 = 13;
/// Refusal 14: a verdict stands.
pub const VERDICT_STANDS: u32 = 14;
/// Refusal 15: a + w is 2,048.
pub const NO_ROOM: u32 = 15;
/// Refusal 16: more than 65,535 events, or fewer answer bytes than events.
pub const BATCH_LENGTH: u32 = 16;

/// The most symbols that a monitor holds, and the length of each of its areas.
pub const ROOM: usize = 2_048;
/// The most fuel that a call takes.
pub const MAX_FUEL: u32 = 65_535;
/// The most events that a batch takes.
pub const MAX_EVENTS: usize = 65_535;

/// An image and a table as callers lend them, with what the reference says of them, so that it is
/// found once for many calls.
#[derive(Clone, Debug)]
pub struct Lent {
    /// The image.
    pub image: Vec<u8>,
    /// The table.
    pub table: Vec<u16>,
    /// The rule set, or refusal 7 or 9.
    set: Result<RuleSet, u32>,
}

impl Lent {
    /// This image and this table, good or bad.
    pub fn new(image: &[u8], words: &[u16]) -> Lent {
        let set = parse(image).and_then(|set| {
            if words.starts_with(&table(&set)) {
                Ok(set)
            } else {
                Err(OTHER_TABLE)
            }
        });
        Lent {
            image: image.to_vec(),
            table: words.to_vec(),
            set,
        }
    }

    /// The image and the table of a rule set in range.
    pub fn of(set: &RuleSet) -> Lent {
        Lent::new(&crate::encode(set), &table(set))
    }

    /// The rule set.
    ///
    /// # Panics
    ///
    /// If image or table are refused.
    pub fn set(&self) -> &RuleSet {
        self.set.as_ref().expect("a good image and its table")
    }

    /// The table's states after each symbol of a string, which begins in state 0.
    fn states(&self, string: &[Symbol]) -> Vec<u16> {
        let n = usize::from(self.table[0]);
        let s = usize::from(self.table[1]);
        let rows = &self.table[2 + n..];
        let mut state = 0;
        string
            .iter()
            .map(|&symbol| {
                state = rows[usize::from(state) * s + usize::from(symbol)];
                state
            })
            .collect()
    }
}

/// Head and areas.
#[derive(Clone, Debug, PartialEq, Eq)]
pub struct Memory {
    /// Settled count, waiting count, verdict + 1 or 0 for none, the verdict's rule.
    pub head: [u64; 4],
    /// The area of bytes.
    pub bytes: Vec<u8>,
    /// The area of words.
    pub words: Vec<u16>,
}

impl Memory {
    /// What a fresh that is not refused leaves.
    pub fn empty() -> Memory {
        Memory {
            head: [0; 4],
            bytes: vec![0; ROOM],
            words: vec![0; ROOM],
        }
    }
}

/// A verdict and its rule.
#[derive(Clone, Copy, Debug, PartialEq, Eq)]
pub struct Verdict {
    /// The verdict.
    pub number: u8,
    /// The rule that set it.
    pub rule: usize,
}

/// Why a run ended.
#[derive(Clone, Copy, Debug, PartialEq, Eq)]
pub enum Answer {
    /// Nothing waits.
    Quiet,
    /// Fuel steps were taken.
    Spent,
    /// The next step does not fit.
    Full,
    /// A verdict stands.
    Verdict(u8),
}

impl Answer {
    /// The answer's number.
    pub fn byte(self) -> u8 {
        match self {
            Answer::Quiet => 0,
            Answer::Spent => 1,
            Answer::Full => 2,
            Answer::Verdict(verdict) => 16 + verdict,
        }
    }
}

/// What the steps of a run did.
#[derive(Clone, Copy, Debug, Default, PartialEq, Eq)]
pub struct Counts {
    /// The steps.
    pub steps: u64,
    /// The steps that matched.
    pub rewrites: u64,
    /// The symbols that these put back.
    pub put_back: u64,
}

/// What a monitor holds.
#[derive(Clone, Debug, Default, PartialEq, Eq)]
pub struct State {
    /// The settled symbols.
    pub settled: Vec<Symbol>,
    /// The waiting symbols.
    pub waiting: Vec<Symbol>,
    /// The verdict, if one stands.
    pub verdict: Option<Verdict>,
}

impl State {
    /// The whole string.
    pub fn string(&self) -> Vec<Symbol> {
        [&self.settled[..], &self.waiting].concat()
    }

    /// The number of symbols held.
    fn len(&self) -> usize {
        self.settled.len() + self.waiting.len()
    }

    /// The state after one step, and what the step did. Something waits.
    fn step(&self, set: &RuleSet) -> (State, Counts) {
        let (first, rest) = self.waiting.split_first().expect("something waits");
        let mut settled = self.settled.clone();
        settled.push(*first);
        let mut next = State {
            settled,
            waiting: rest.to_vec(),
            verdict: None,
        };
        let mut counts = Counts {
            steps: 1,
            ..Counts::default()
        };
        if let Some(rule) = match_at_the_end(set, &next.settled) {
            let left = set.rules[rule].left.len();
            next.settled.truncate(next.settled.len() - left);
            counts.rewrites = 1;
            match &set.rules[rule].right {
                Right::Symbols(right) => {
                    next.waiting = [&right[..], rest].concat();
                    counts.put_back = right.len() as u64;
                }
                Right::Verdict(number) => {
                    next.verdict = Some(Verdict {
                        number: *number,
                        rule,
                    });
                }
            }
        }
        (next, counts)
    }

    /// Runs by the order of tests, and says why it ended and what it did.
    pub fn run(&mut self, set: &RuleSet, fuel: u32) -> (Answer, Counts) {
        let mut counts = Counts::default();
        loop {
            if let Some(verdict) = self.verdict {
                return (Answer::Verdict(verdict.number), counts);
            }
            if self.waiting.is_empty() {
                return (Answer::Quiet, counts);
            }
            if counts.steps == u64::from(fuel) {
                return (Answer::Spent, counts);
            }
            let (next, did) = self.step(set);
            if next.len() > ROOM {
                return (Answer::Full, counts);
            }
            *self = next;
            counts.steps += did.steps;
            counts.rewrites += did.rewrites;
            counts.put_back += did.put_back;
        }
    }

    /// The refusal of an event offered to this state: 12, 14 or 15.
    pub fn refuses(&self, set: &RuleSet, event: u8) -> Option<u32> {
        if event >= set.events {
            Some(NO_EVENT)
        } else if self.verdict.is_some() {
            Some(VERDICT_STANDS)
        } else if self.len() == ROOM {
            Some(NO_ROOM)
        } else {
            None
        }
    }

    /// Head and areas of this state, which holds symbols of the rule set and has room for them.
    pub fn lay_out(&self, lent: &Lent) -> Memory {
        let mut memory = Memory::empty();
        let (a, w) = (self.settled.len(), self.waiting.len());
        memory.head[0] = a as u64;
        memory.head[1] = w as u64;
        if let Some(verdict) = self.verdict {
            memory.head[2] = u64::from(verdict.number) + 1;
            memory.head[3] = verdict.rule as u64;
        }
        memory.bytes[..a].copy_from_slice(&self.settled);
        memory.bytes[ROOM - w..].copy_from_slice(&self.waiting);
        memory.words[..a].copy_from_slice(&lent.states(&self.settled));
        memory
    }

    /// The state that head and areas of the right lengths describe, or refusal 11.
    fn described_by(memory: &Memory, lent: &Lent) -> Result<State, u32> {
        let set = lent.set();
        let [a, w, verdict, rule] = memory.head;
        if u128::from(a) + u128::from(w) > ROOM as u128 {
            return Err(NOT_DESCRIBED);
        }
        let state = State {
            settled: memory.bytes[..a as usize].to_vec(),
            waiting: memory.bytes[ROOM - w as usize..].to_vec(),
            verdict: match verdict {
                0 => None,
                _ => Some(verdict_of_rule(set, rule)?),
            },
        };
        if state.string().iter().any(|&symbol| symbol >= set.symbols) {
            return Err(NOT_DESCRIBED);
        }
        // A settled state has a match when a left side ends at its symbol.
        if !occurrences(set, &state.settled).is_empty() {
            return Err(NOT_DESCRIBED);
        }
        if state.lay_out(lent) == *memory {
            Ok(state)
        } else {
            Err(NOT_DESCRIBED)
        }
    }
}

/// The rule whose left side ends `settled`, a marked one only if it is the whole of it: the one that
/// begins first; of these a marked one; of these the lowest.
fn match_at_the_end(set: &RuleSet, settled: &[Symbol]) -> Option<usize> {
    let begin = |rule: usize| settled.len() - set.rules[rule].left.len();
    (0..set.rules.len())
        .filter(|&rule| settled.ends_with(&set.rules[rule].left))
        .filter(|&rule| begin(rule) == 0 || !set.rules[rule].marked)
        .min_by_key(|&rule| (begin(rule), !set.rules[rule].marked, rule))
}

/// The verdict of the rule with this number, or refusal 11 if it has none.
fn verdict_of_rule(set: &RuleSet, rule: u64) -> Result<Verdict, u32> {
    let rule = usize::try_from(rule).map_err(|_| NOT_DESCRIBED)?;
    match set.rules.get(rule).map(|rule| &rule.right) {
        Some(Right::Verdict(number)) => Ok(Verdict {
            number: *number,
            rule,
        }),
        _ => Err(NOT_DESCRIBED),
    }
}

/// Everything that an offer or a go-on gives.
#[derive(Clone, Debug, PartialEq, Eq)]
pub struct Outcome {
    /// The refusal, or 0.
    pub refusal: u32,
    /// Answer, steps, rewrites, symbols put back.
    pub out: [u64; 4],
    /// Head and areas afterwards.
    pub memory: Memory,
}

impl Outcome {
    /// The outcome of a run, or that of a refusal, which leaves the memory as it was.
    fn new(lent: &Lent, before: &Memory, result: Result<(State, Answer, Counts), u32>) -> Outcome {
        match result {
            Ok((state, answer, counts)) => Outcome {
                refusal: 0,
                out: [
                    answer.byte().into(),
                    counts.steps,
                    counts.rewrites,
                    counts.put_back,
                ],
                memory: state.lay_out(lent),
            },
            Err(refusal) => Outcome {
                refusal,
                out: [0; 4],
                memory: before.clone(),
            },
        }
    }
}

/// Everything that a batch gives.
#[derive(Clone, Debug, PartialEq, Eq)]
pub struct BatchOutcome {
    /// The refusal, or 0.
    pub refusal: u32,
    /// Stop, accepted, steps, rewrites, symbols put back.
    pub out: [u64; 5],
    /// Head and areas afterwards.
    pub memory: Memory,
    /// The answer bytes afterwards.
    pub answers: Vec<u8>,
}

/// The refusal of fresh, or 0, and head and areas afterwards.
pub fn fresh(memory: &Memory) -> (u32, Memory) {
    if memory.bytes.len() != ROOM || memory.words.len() != ROOM {
        let afterwards = Memory {
            head: [0; 4],
            ..memory.clone()
        };
        return (OTHER_LENGTH, afterwards);
    }
    (0, Memory::empty())
}

/// The state that was lent, or refusal 7, 9, 10 or 11.
fn read(lent: &Lent, memory: &Memory) -> Result<State, u32> {
    lent.set.as_ref().map_err(|&refusal| refusal)?;
    if memory.bytes.len() != ROOM || memory.words.len() != ROOM {
        return Err(OTHER_LENGTH);
    }
    State::described_by(memory, lent)
}

/// What an offer gives.
pub fn offer(lent: &Lent, memory: &Memory, event: u8, fuel: u32) -> Outcome {
    let run = || {
        let mut state = read(lent, memory)?;
        let refused = state.refuses(lent.set(), event);
        // 12 comes before 13, and 13 before 14 and 15.
        if refused == Some(NO_EVENT) {
            return Err(NO_EVENT);
        }
        if fuel > MAX_FUEL {
            return Err(TOO_MUCH_FUEL);
        }
        if let Some(refusal) = refused {
            return Err(refusal);
        }
        state.waiting.push(event);
        let (answer, counts) = state.run(lent.set(), fuel);
        Ok((state, answer, counts))
    };
    Outcome::new(lent, memory, run())
}

/// What a go-on gives.
pub fn go_on(lent: &Lent, memory: &Memory, fuel: u32) -> Outcome {
    let run = || {
        let mut state = read(lent, memory)?;
        if fuel > MAX_FUEL {
            return Err(TOO_MUCH_FUEL);
        }
        if state.verdict.is_some() {
            return Err(VERDICT_STANDS);
        }
        let (answer, counts) = state.run(lent.set(), fuel);
        Ok((state, answer, counts))
    };
    Outcome::new(lent, memory, run())
}

/// What a batch gives.
pub fn batch(
    lent: &Lent,
    memory: &Memory,
    events: &[u8],
    fuel: u32,
    answers: &[u8],
) -> BatchOutcome {
    let begin = || {
        let state = read(lent, memory)?;
        if fuel > MAX_FUEL {
            return Err(TOO_MUCH_FUEL);
        }
        if events.len() > MAX_EVENTS || answers.len() < events.len() {
            return Err(BATCH_LENGTH);
        }
        Ok(state)
    };
    let mut outcome = BatchOutcome {
        refusal: 0,
        out: [0; 5],
        memory: memory.clone(),
        answers: answers.to_vec(),
    };
    let mut state = match begin() {
        Ok(state) => state,
        Err(refusal) => {
            outcome.refusal = refusal;
            return outcome;
        }
    };
    for (place, &event) in events.iter().enumerate() {
        if let Some(refusal) = state.refuses(lent.set(), event) {
            outcome.out[0] = refusal.into();
            break;
        }
        state.waiting.push(event);
        let (answer, counts) = state.run(lent.set(), fuel);
        outcome.answers[place] = answer.byte();
        outcome.out[1] += 1;
        outcome.out[2] += counts.steps;
        outcome.out[3] += counts.rewrites;
        outcome.out[4] += counts.put_back;
    }
    outcome.memory = state.lay_out(lent);
    outcome
}

#[cfg(test)]
mod tests {
    use super::*;
    use crate::random::{sample, Habit, Random};
    use crate::rewriter::{first_occurrence, Rewriter};
    use crate::{marked, states, string, verdict, MARK};

    /// Offers the events, each with this fuel, and returns the last outcome and the summed counts.
    fn offers(set: &RuleSet, events: &[u8], fuel: u32) -> (Outcome, [u64; 3]) {
        let lent = Lent::of(set);
        let mut memory = Memory::empty();
        let mut sums = [0; 3];
        let mut last = None;
        for &event in events {
            let outcome = offer(&lent, &memory, event, fuel);
            assert_eq!(outcome.refusal, 0);
            memory = outcome.memory.clone();
            for (sum, count) in sums.iter_mut().zip(&outcome.out[1..]) {
                *sum += count;
            }
            last = Some(outcome);
        }
        (last.expect("an event"), sums)
    }

    fn rules(symbols: u8, rules: Vec<crate::Rule>) -> RuleSet {
        RuleSet {
            symbols,
            events: symbols,
            verdicts: 2,
            rules,
        }
    }

    /// The sample's lines in document 01.
    #[test]
    fn sample_lines() {
        let lent = Lent::of(&sample());
        let mut memory = Memory::empty();
        for (event, out, head) in [
            (0, [0, 1, 0, 0], [1, 0, 0, 0]),
            (1, [0, 2, 1, 1], [1, 0, 0, 0]),
            (2, [0, 1, 1, 0], [0, 0, 0, 0]),
            (1, [16, 1, 1, 0], [0, 0, 1, 2]),
        ] {
            let outcome = offer(&lent, &memory, event, 1_000);
            assert_eq!((outcome.refusal, outcome.out), (0, out));
            assert_eq!(outcome.memory.head, head);
            memory = outcome.memory;
        }
        assert_eq!(offer(&lent, &memory, 0, 1_000).refusal, VERDICT_STANDS);
    }

    /// C1 to C9 of document 01.
    #[test]
    fn worked_examples() {
        let none = rules(1, vec![]);
        assert_eq!(offers(&none, &[0], 0).0.memory.head, [0, 1, 0, 0]);
        assert_eq!(offers(&none, &[0], 0).0.out, [1, 0, 0, 0]);
        assert_eq!(offers(&none, &[0], 1).0.out, [0, 1, 0, 0]);
        assert_eq!(offers(&sample(), &[0, 1], 1_000).1, [3, 1, 1]);

        let (a, b, c, d) = (0, 1, 2, 3);
        let set = rules(4, vec![string(&[a, b], &[c]), verdict(&[d, c], 0)]);
        let (last, sums) = offers(&set, &[d, a, b], 1_000);
        assert_eq!((last.out[0], sums), (16, [4, 2, 1]));

        let set = rules(3, vec![verdict(&[b, a, a, c], 0), string(&[a, a], &[])]);
        let (last, _) = offers(&set, &[b, a, a], 1_000);
        assert_eq!((last.out[0], last.memory.head), (0, [1, 0, 0, 0]));
        assert_eq!(last.memory.bytes[0], b);

        let set = rules(1, vec![string(&[a], &[a, a])]);
        let (last, _) = offers(&set, &[a], 3);
        assert_eq!(last.out, [1, 3, 3, 6]);
        assert_eq!(last.memory.head, [0, 4, 0, 0]);

        let set = rules(1, vec![string(&[a], &[a])]);
        assert_eq!(offers(&set, &[a], 9).0.out, [1, 9, 9, 9]);

        let set = rules(1, vec![verdict(&[a], 0), verdict(&[a], 1)]);
        let (last, _) = offers(&set, &[a], 1_000);
        assert_eq!((last.out[0], last.memory.head), (16, [0, 0, 1, 0]));
    }

    /// The edges of document 01.
    #[test]
    fn growth_to_the_edge() {
        let set = rules(1, vec![string(&[0], &[0, 0])]);
        let lent = Lent::of(&set);
        let spent = offer(&lent, &Memory::empty(), 0, 2_047);
        assert_eq!(spent.out, [1, 2_047, 2_047, 4_094]);
        let full = offer(&lent, &Memory::empty(), 0, 2_048);
        assert_eq!(full.out, [2, 2_047, 2_047, 4_094]);
        assert_eq!(full.memory.head, [0, 2_048, 0, 0]);
        assert_eq!(offer(&lent, &full.memory, 0, 1).refusal, NO_ROOM);
        assert_eq!(go_on(&lent, &full.memory, 1).out, [2, 0, 0, 0]);
        assert_eq!(go_on(&lent, &full.memory, 0).out, [1, 0, 0, 0]);
        assert_eq!(offer(&lent, &Memory::empty(), 0, 65_535).refusal, 0);
        let refused = offer(&lent, &Memory::empty(), 0, 65_536);
        assert_eq!(refused.refusal, TOO_MUCH_FUEL);
        assert_eq!((refused.out, refused.memory), ([0; 4], Memory::empty()));
    }

    #[test]
    fn batches() {
        let lent = Lent::of(&sample());
        let outcome = batch(&lent, &Memory::empty(), &[0, 1, 2, 1, 0], 9, &[7; 6]);
        assert_eq!(outcome.out, [14, 4, 5, 3, 1]);
        assert_eq!(outcome.answers, [0, 0, 0, 16, 7, 7]);
        assert_eq!(outcome.memory.head, [0, 0, 1, 2]);
        let again = batch(&lent, &outcome.memory, &[], 9, &[]);
        assert_eq!((again.refusal, again.out), (0, [0; 5]));
        let short = batch(&lent, &Memory::empty(), &[0, 1], 9, &[7]);
        assert_eq!((short.refusal, short.answers), (BATCH_LENGTH, vec![7]));
    }

    /// ^ a → fail; b b → empty; a c → b: words in a marked image, and the mark after a cut.
    #[test]
    fn marks() {
        let (a, b, c) = (0, 1, 2);
        let set = rules(
            3,
            vec![
                marked(verdict(&[a], 0)),
                string(&[b, b], &[]),
                string(&[a, c], &[b]),
            ],
        );
        // States: 0 ^, 1 empty, 2 ^ a, 3 b, 4 b b, 5 a, 6 a c.
        let lent = Lent::of(&set);
        let (last, _) = offers(&set, &[c, a, b, a], 9);
        assert_eq!(last.memory.bytes[..5], [c, a, b, a, 0]);
        assert_eq!(last.memory.words[..5], [1, 5, 3, 5, 0]);
        assert_eq!(last.out, [0, 1, 0, 0]);
        // The string is empty again before `a`.
        let (last, sums) = offers(&set, &[b, b, a], 9);
        assert_eq!((last.out[0], sums), (16, [3, 2, 0]));
        assert_eq!(last.memory.head, [0, 0, 1, 0]);
        // A word of a settled symbol that begins nothing is 1, and not 0.
        let mut memory = offers(&set, &[c], 9).0.memory;
        assert_eq!(memory.words[0], 1);
        assert_eq!(go_on(&lent, &memory, 9).refusal, 0);
        memory.words[0] = 0;
        assert_eq!(go_on(&lent, &memory, 9).refusal, NOT_DESCRIBED);
        // A marked left side at the start, and the same in the middle.
        let settled = |string: &[Symbol]| State {
            settled: string.to_vec(),
            ..State::default()
        };
        let refusal = |state: State| go_on(&lent, &state.lay_out(&lent), 9).refusal;
        assert_eq!(refusal(settled(&[a])), NOT_DESCRIBED);
        assert_eq!(refusal(settled(&[c, a])), 0);
        let judged = State {
            verdict: Some(Verdict { number: 0, rule: 0 }),
            ..State::default()
        };
        assert_eq!(refusal(judged), VERDICT_STANDS);
    }

    /// By another way: the word of a settled symbol is the longest state that ends the settled string up to it,
    /// with the mark before it; and the rewrites that an offer reports are those of the plain rewriter.
    #[test]
    fn marks_by_another_way() {
        let mut random = Random::new(6);
        let (mut words, mut rewrites) = (0, 0);
        for round in 0..1_500 {
            let set = Habit::ALL[round % Habit::ALL.len()].with_marks(&mut random);
            let lent = Lent::of(&set);
            let strings = states(&set);
            let mut memory = Memory::empty();
            let mut rewriter = Rewriter::new(&[]);
            for _ in 0..12 {
                let event = random.below(set.events.into()) as u8;
                let outcome = offer(&lent, &memory, event, 12);
                if outcome.refusal != 0 {
                    break;
                }
                memory = outcome.memory;
                rewriter.string.push(event);
                for _ in 0..outcome.out[2] {
                    rewrites += usize::from(rewriter.rewrite(&set).is_some());
                }
                let (a, w) = (memory.head[0] as usize, memory.head[1] as usize);
                let (settled, waiting) = (&memory.bytes[..a], &memory.bytes[ROOM - w..]);
                assert_eq!([settled, waiting].concat(), rewriter.string);
                assert_eq!(memory.head[2] != 0, rewriter.verdict.is_some());
                if memory.head[2] == 0 {
                    assert_eq!(first_occurrence(&set, settled), None);
                }
                for place in 0..a {
                    let read = [&[MARK], &settled[..=place]].concat();
                    let longest = (0..strings.len())
                        .filter(|&q| read.ends_with(&strings[q]))
                        .max_by_key(|&q| strings[q].len());
                    assert_eq!(Some(memory.words[place].into()), longest);
                    words += 1;
                }
            }
        }
        assert!(words > 10_000 && rewrites > 3_000, "{words} {rewrites}");
    }

    #[test]
    fn descriptions() {
        let lent = Lent::of(&sample());
        let good = State {
            settled: vec![0, 3],
            waiting: vec![1, 2],
            verdict: None,
        }
        .lay_out(&lent);
        assert_eq!(go_on(&lent, &good, 0).refusal, 0);
        let damages: [fn(&mut Memory); 9] = [
            |memory| memory.head[0] = 3,
            |memory| memory.head[1] = u64::MAX - 1,
            |memory| memory.head[2] = 1,
            |memory| memory.head[3] = 2,
            |memory| memory.bytes[0] = 4,
            |memory| memory.bytes[0] = 2,
            |memory| memory.bytes[2_047] = 4,
            |memory| memory.bytes[1_000] = 1,
            |memory| memory.words[2_047] = 1,
        ];
        for damage in damages {
            let mut memory = good.clone();
            damage(&mut memory);
            assert_eq!(go_on(&lent, &memory, 0).refusal, NOT_DESCRIBED);
        }
        let matched = State {
            settled: vec![1],
            ..State::default()
        };
        assert_eq!(
            go_on(&lent, &matched.lay_out(&lent), 0).refusal,
            NOT_DESCRIBED
        );
        let mut judged = good.clone();
        judged.head[2..].copy_from_slice(&[1, 2]);
        assert_eq!(go_on(&lent, &judged, 0).refusal, VERDICT_STANDS);
    }
}
