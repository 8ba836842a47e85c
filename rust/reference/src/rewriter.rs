/*!
The plain rewriter: one string, perhaps a verdict, and one rewrite at a time.

It keeps nothing from one rewrite to the next. Each lists all occurrences of left sides in the whole
string and chooses among them.
*/

use crate::{Right, Rule, RuleSet, Symbol};

/// An occurrence of a rule's left side: the symbols of the string from `begin` to before `end`.
#[derive(Clone, Copy, Debug, PartialEq, Eq)]
pub struct Occurrence {
    /// Where it begins.
    pub begin: usize,
    /// Where it ends: the place behind its last symbol.
    pub end: usize,
    /// The rule whose left side it is.
    pub rule: usize,
}

/// All occurrences of left sides in a string. A marked left side occurs only at the string's first symbol.
pub fn occurrences(set: &RuleSet, string: &[Symbol]) -> Vec<Occurrence> {
    let mut found = Vec::new();
    for begin in 0..string.len() {
        for (rule, Rule { marked, left, .. }) in set.rules.iter().enumerate() {
            if string[begin..].starts_with(left) && (begin == 0 || !marked) {
                found.push(Occurrence {
                    begin,
                    end: begin + left.len(),
                    rule,
                });
            }
        }
    }
    found
}

/// The occurrence that is rewritten: the one that ends first; of these the one that begins first; of
/// these that of a marked rule; of these that of the lowest rule.
pub fn first_occurrence(set: &RuleSet, string: &[Symbol]) -> Option<Occurrence> {
    let unmarked = |occurrence: &Occurrence| !set.rules[occurrence.rule].marked;
    occurrences(set, string)
        .into_iter()
        .min_by_key(|found| (found.end, found.begin, unmarked(found), found.rule))
}

/// The plain rewriter.
#[derive(Clone, Debug, PartialEq, Eq)]
pub struct Rewriter {
    /// The string.
    pub string: Vec<Symbol>,
    /// The verdict, if one stands.
    pub verdict: Option<u8>,
}

impl Rewriter {
    /// The rewriter with this first string and no verdict.
    pub fn new(string: &[Symbol]) -> Rewriter {
        Rewriter {
            string: string.to_vec(),
            verdict: None,
        }
    }

    /// Makes one rewrite and returns its rule, or rests: with a verdict, or without an occurrence.
    pub fn rewrite(&mut self, set: &RuleSet) -> Option<usize> {
        if self.verdict.is_some() {
            return None;
        }
        let Occurrence { begin, end, rule } = first_occurrence(set, &self.string)?;
        let right = match &set.rules[rule].right {
            Right::Symbols(right) => &right[..],
            Right::Verdict(verdict) => {
                self.verdict = Some(*verdict);
                &[]
            }
        };
        self.string = [&self.string[..begin], right, &self.string[end..]].concat();
        Some(rule)
    }
}

#[cfg(test)]
mod tests {
    use super::*;
    use crate::random::sample;
    use crate::{marked, string, verdict};

    #[test]
    fn sample_rewrites() {
        let (lock, take, free, held) = (0, 1, 2, 3);
        let set = sample();
        let mut rewriter = Rewriter::new(&[lock, take, free, take, lock]);
        assert_eq!(rewriter.rewrite(&set), Some(0));
        assert_eq!(rewriter.string, [held, free, take, lock]);
        assert_eq!(rewriter.rewrite(&set), Some(1));
        assert_eq!(rewriter.string, [take, lock]);
        assert_eq!(rewriter.rewrite(&set), Some(2));
        assert_eq!(
            (&rewriter.string[..], rewriter.verdict),
            (&[lock][..], Some(0))
        );
        assert_eq!(rewriter.rewrite(&set), None);
    }

    /// Ends first, then begins first, then the lowest rule: each decides once.
    #[test]
    fn the_occurrence_chosen() {
        let set = |lefts: &[&[Symbol]]| RuleSet {
            symbols: 3,
            events: 3,
            verdicts: 2,
            rules: lefts.iter().map(|left| string(left, &[])).collect(),
        };
        let chosen = |lefts: &[&[Symbol]], held: &[Symbol]| {
            let found = first_occurrence(&set(lefts), held).expect("an occurrence");
            (found.begin, found.end, found.rule)
        };
        // `0 1 2` begins first, but `1` ends first.
        assert_eq!(chosen(&[&[0, 1, 2], &[1]], &[0, 1, 2]), (1, 2, 1));
        // `2`, `1 2` and `0 1 2` end together.
        assert_eq!(chosen(&[&[2], &[1, 2], &[0, 1, 2]], &[0, 1, 2]), (0, 3, 2));
        assert_eq!(chosen(&[&[2], &[1], &[1]], &[0, 1, 2]), (1, 2, 1));
        assert_eq!(first_occurrence(&set(&[&[2, 1]]), &[0, 1, 2]), None);
        assert_eq!(occurrences(&set(&[&[0, 0], &[0]]), &[0, 0]).len(), 3);
    }

    /// A marked left side occurs at the string's first symbol only, whatever stood there before.
    #[test]
    fn occurrences_at_the_start() {
        let (a, b) = (0, 1);
        let set = RuleSet {
            symbols: 2,
            events: 2,
            verdicts: 2,
            rules: vec![marked(string(&[a, b], &[])), marked(verdict(&[b], 0))],
        };
        let places = |held: &[Symbol]| -> Vec<(usize, usize)> {
            let found = occurrences(&set, held);
            found
                .iter()
                .map(|found| (found.begin, found.rule))
                .collect()
        };
        assert_eq!(places(&[a, b, a, b]), [(0, 0)]);
        assert_eq!(places(&[b, b]), [(0, 1)]);
        assert_eq!(places(&[a, a, b, b]), []);
        // Behind the first `a b` the second becomes the start.
        let mut rewriter = Rewriter::new(&[a, b, a, b, b, a]);
        let rules: Vec<usize> = (0..3).filter_map(|_| rewriter.rewrite(&set)).collect();
        assert_eq!(rules, [0, 0, 1]);
        assert_eq!((rewriter.string, rewriter.verdict), (vec![a], Some(0)));
    }

    /// Marked before unmarked on the same span, whatever their numbers; then the lowest rule. What ends
    /// or begins first comes first though it have no mark.
    #[test]
    fn the_occurrence_chosen_with_marks() {
        let (a, b, c) = (0, 1, 2);
        let chosen = |lefts: &[(bool, &[Symbol])], held: &[Symbol]| {
            let set = RuleSet {
                symbols: 3,
                events: 3,
                verdicts: 2,
                rules: lefts
                    .iter()
                    .map(|&(marked, left)| Rule {
                        marked,
                        ..string(left, &[])
                    })
                    .collect(),
            };
            first_occurrence(&set, held).map(|found| found.rule)
        };
        assert_eq!(chosen(&[(false, &[a]), (true, &[a])], &[a]), Some(1));
        assert_eq!(chosen(&[(true, &[a]), (false, &[a])], &[a]), Some(0));
        assert_eq!(chosen(&[(false, &[a]), (true, &[a])], &[b, a]), Some(0));
        let two = [(false, &[a][..]), (true, &[a]), (true, &[a])];
        assert_eq!(chosen(&two, &[a]), Some(1));
        // `b` ends with `a b` and begins later; `a b c` ends later.
        let three = [(true, &[a, b][..]), (false, &[b]), (true, &[a, b, c])];
        assert_eq!(chosen(&three, &[a, b, c]), Some(0));
        assert_eq!(chosen(&three[1..], &[a, b, c]), Some(0));
        assert_eq!(chosen(&three[2..], &[a, b, c]), Some(0));
        assert_eq!(chosen(&three, &[c, a, b, c]), Some(1));
        // `a b` begins before `b`, marked or not.
        assert_eq!(chosen(&[(true, &[b]), (false, &[a, b])], &[a, b]), Some(1));
    }

    /// The rest of the string stays beside a verdict.
    #[test]
    fn the_rest_beside_a_verdict() {
        let set = RuleSet {
            symbols: 2,
            events: 2,
            verdicts: 4,
            rules: vec![verdict(&[1, 0], 3)],
        };
        let mut rewriter = Rewriter::new(&[0, 1, 0, 1, 0]);
        assert_eq!(rewriter.rewrite(&set), Some(0));
        assert_eq!(
            (&rewriter.string[..], rewriter.verdict),
            (&[0, 1, 0][..], Some(3))
        );
        assert_eq!(rewriter.rewrite(&set), None);
        assert_eq!(rewriter.string, [0, 1, 0]);
    }
}
