/*!
A monitor without a table, which looks through its whole string after every rewrite: the plain
rewriter, kept from event to event.

It answers nothing and checks nothing; what it shows is the price of looking again.
*/

use reference::{Right, Rule, RuleSet, Symbol};

/// The plain rewriter, with the events that it was given so far.
#[derive(Clone)]
pub struct Rescan {
    set: RuleSet,
    /// The string.
    pub string: Vec<Symbol>,
    /// The verdict, if one stands.
    pub verdict: Option<u8>,
}

impl Rescan {
    /// The rewriter with this string.
    pub fn new(set: &RuleSet, string: &[Symbol]) -> Rescan {
        Rescan {
            set: set.clone(),
            string: string.to_vec(),
            verdict: None,
        }
    }

    /// Takes events one after another and after each makes up to `fuel` rewrites. Returns the
    /// number of rewrites.
    #[inline(never)]
    pub fn batch(&mut self, events: &[Symbol], fuel: u32) -> u64 {
        let mut rewrites = 0;
        for &event in events {
            self.string.push(event);
            for _ in 0..fuel {
                if !self.rewrite() {
                    break;
                }
                rewrites += 1;
            }
        }
        rewrites
    }

    /// Makes one rewrite, if there is an occurrence and no verdict.
    fn rewrite(&mut self) -> bool {
        if self.verdict.is_some() {
            return false;
        }
        let Some((rule, end)) = self.first_occurrence() else {
            return false;
        };
        let begin = end - self.set.rules[rule].left.len();
        match &self.set.rules[rule].right {
            Right::Symbols(right) => {
                self.string.splice(begin..end, right.iter().copied());
            }
            Right::Verdict(verdict) => {
                self.string.drain(begin..end);
                self.verdict = Some(*verdict);
            }
        }
        true
    }

    /// The rule and the end of the occurrence that ends first, of these begins first, of these is
    /// marked, of these has the lowest rule.
    fn first_occurrence(&self) -> Option<(usize, usize)> {
        for (place, symbol) in self.string.iter().enumerate() {
            let end = place + 1;
            // The mark counts as a symbol more.
            let mut longest = 0;
            let mut found = None;
            for (rule, Rule { marked, left, .. }) in self.set.rules.iter().enumerate() {
                // The last symbol first, since it mostly decides.
                if left.last() == Some(symbol)
                    && left.len() + usize::from(*marked) > longest
                    && (!marked || left.len() == end)
                    && self.string[..end].ends_with(left)
                {
                    longest = left.len() + usize::from(*marked);
                    found = Some((rule, end));
                }
            }
            if found.is_some() {
                return found;
            }
        }
        None
    }
}

#[cfg(test)]
mod tests {
    use super::*;
    use reference::random::{Habit, Random};
    use reference::rewriter::Rewriter;

    /// It is the plain rewriter of the reference.
    #[test]
    fn rescan_is_the_plain_rewriter() {
        let mut random = Random::new(18);
        let mut rewritten = 0;
        for round in 0..600 {
            let habit = Habit::ALL[round % Habit::ALL.len()];
            let set = match round / Habit::ALL.len() % 2 {
                0 => habit.rule_set(&mut random),
                _ => habit.with_marks(&mut random),
            };
            let mut rescan = Rescan::new(&set, &[]);
            let mut rewriter = Rewriter::new(&[]);
            for _ in 0..12 {
                let event = random.below(set.events.into()) as Symbol;
                let rewrites = rescan.batch(&[event], 5);
                rewriter.string.push(event);
                for _ in 0..rewrites {
                    assert!(rewriter.rewrite(&set).is_some());
                }
                assert!(rewrites == 5 || rewriter.clone().rewrite(&set).is_none());
                assert_eq!(rescan.string, rewriter.string);
                assert_eq!(rescan.verdict, rewriter.verdict);
                rewritten += rewrites;
            }
        }
        assert!(rewritten > 3_000, "{rewritten} rewrites");
    }
}
