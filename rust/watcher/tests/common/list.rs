//! A list of calls from a fresh monitor, with the plain rewriter beside it.

use super::calls;
use reference::monitor::{Lent, Memory, Outcome};
use reference::rewriter::{occurrences, Rewriter};
use reference::{Right, RuleSet, Symbol};

/// A call of a list.
#[derive(Clone, Copy, Debug)]
pub enum Call {
    /// Offer this event with this fuel.
    Offer(u8, u32),
    /// Go on with this fuel.
    GoOn(u32),
}

/// A list of calls: what its monitor holds, and what its calls reported.
pub struct List<'a> {
    lent: &'a Lent,
    /// What the last call left.
    pub memory: Memory,
    /// The accepted events.
    pub events: Vec<Symbol>,
    /// The summed steps.
    pub steps: u64,
    /// The summed rewrites.
    pub rewrites: u64,
    /// The summed symbols put back.
    pub put_back: u64,
    /// The plain rewriter after as many rewrites, which it makes as they are reported.
    follower: Follower<'a>,
}

impl<'a> List<'a> {
    /// The empty list: a fresh monitor, whose areas held something else before.
    pub fn new(lent: &'a Lent) -> List<'a> {
        let mut memory = Memory::empty();
        memory.head = [7, 8, 9, 10];
        memory.bytes.fill(0xaa);
        memory.words.fill(0xbbbb);
        assert_eq!(calls::fresh(&mut memory), 0);
        List {
            lent,
            memory,
            events: Vec::new(),
            steps: 0,
            rewrites: 0,
            put_back: 0,
            follower: Follower::new(lent.set(), &[]),
        }
    }

    /// Makes a call, compares it with the naive monitor, and checks the list with the plain rewriter.
    #[track_caller]
    pub fn call(&mut self, call: Call) -> Outcome {
        let (outcome, fuel) = match call {
            Call::Offer(event, fuel) => {
                let outcome = calls::offer(self.lent, &mut self.memory, event, fuel);
                if outcome.refusal == 0 {
                    self.events.push(event);
                    // An event that comes later comes at the end of the string, where it hides no
                    // occurrence that ends before it.
                    self.follower.rewriter.string.push(event);
                }
                (outcome, fuel)
            }
            Call::GoOn(fuel) => (calls::go_on(self.lent, &mut self.memory, fuel), fuel),
        };
        let [answer, steps, rewrites, put_back] = outcome.out;
        assert!(steps <= fuel.into() || outcome.refusal != 0);
        self.steps += steps;
        self.rewrites += rewrites;
        self.put_back += put_back;
        self.follower.rewrite(rewrites);
        self.follower.expect(self);
        if outcome.refusal == 0 {
            self.expect_answer(answer);
        }
        outcome
    }

    /// What the counts and the answer say of the string that the monitor holds.
    #[track_caller]
    fn expect_answer(&self, answer: u64) {
        let accepted = self.events.len() as u64;
        let [_, waiting, verdict, _] = self.memory.head;
        assert_eq!(self.steps + waiting, accepted + self.put_back);
        assert!(self.steps <= accepted + 8 * self.rewrites);
        assert_eq!(answer == 0, waiting == 0 && verdict == 0);
        assert_eq!(answer >= 16, verdict != 0);
        if answer == 0 {
            assert_eq!(occurrences(self.lent.set(), &self.string()), []);
        }
        if answer >= 16 {
            assert_eq!(answer, 15 + verdict);
        }
    }

    /// Feeds the plain rewriter all accepted events as its first string, and checks the list.
    #[track_caller]
    pub fn check_from_the_start(&self) {
        let mut follower = Follower::new(self.lent.set(), &self.events);
        follower.rewrite(self.rewrites);
        follower.expect(self);
    }

    /// The string that the monitor holds.
    pub fn string(&self) -> Vec<Symbol> {
        let [a, w, ..] = self.memory.head.map(|word| word as usize);
        let bytes = &self.memory.bytes;
        [&bytes[..a], &bytes[bytes.len() - w..]].concat()
    }
}

/// The plain rewriter, and what its rewrites did.
struct Follower<'a> {
    set: &'a RuleSet,
    rewriter: Rewriter,
    /// The symbols that its rewrites put in.
    put_in: u64,
    /// The rule of the last rewrite.
    rule: usize,
}

impl<'a> Follower<'a> {
    fn new(set: &'a RuleSet, string: &[Symbol]) -> Follower<'a> {
        Follower {
            set,
            rewriter: Rewriter::new(string),
            put_in: 0,
            rule: 0,
        }
    }

    /// Makes this many rewrites, each of which finds an occurrence and no verdict.
    #[track_caller]
    fn rewrite(&mut self, rewrites: u64) {
        for _ in 0..rewrites {
            self.rule = self
                .rewriter
                .rewrite(self.set)
                .expect("an occurrence and no verdict");
            if let Right::Symbols(right) = &self.set.rules[self.rule].right {
                self.put_in += right.len() as u64;
            }
        }
    }

    /// Expects that the monitor holds the rewriter's string and verdict.
    #[track_caller]
    fn expect(&self, list: &List) {
        assert_eq!(list.string(), self.rewriter.string);
        assert_eq!(list.put_back, self.put_in);
        let (verdict, rule) = match self.rewriter.verdict {
            Some(verdict) => (u64::from(verdict) + 1, self.rule as u64),
            None => (0, 0),
        };
        assert_eq!(list.memory.head[2..], [verdict, rule]);
    }
}
