//! Compile against the reference: rule sets of every shape, and areas of every length.

mod common;

use common::Case;
use reference::random::{self, Random, Shape};
use reference::{verdict, Right, Rule, RuleSet};

/// The states that match though their own string is no left side.
fn inherited_matches(case: &Case) -> usize {
    let rules = &case.set.rules;
    let is_left = |string: &Vec<u8>| rules.iter().any(|rule| rule.left_with_mark() == *string);
    let states = reference::states(&case.set);
    (0..states.len())
        .filter(|&q| case.table[2 + q] != 0 && !is_left(&states[q]))
        .count()
}

/// The transitions to a state that is neither the string read nor its last symbol nor empty.
fn transitions_into_the_middle(case: &Case) -> usize {
    let states = reference::states(&case.set);
    let s = usize::from(case.set.symbols);
    let rows = &case.table[2 + states.len()..];
    let next = |q: usize, a: usize| &states[usize::from(rows[q * s + a])];
    (0..states.len())
        .map(|q| {
            (0..s)
                .filter(|&a| (2..=states[q].len()).contains(&next(q, a).len()))
                .count()
        })
        .sum()
}

#[test]
fn random_rule_sets() {
    let mut random = Random::new(101);
    let (mut inherited, mut middle, mut repeated) = (0, 0, 0);
    let mut symbols_seen = [0; 33];
    let mut lengths_seen = [0; 9];
    let mut verdicts_seen = [0; 16];
    for shape in Shape::ALL {
        for _ in 0..2_000 {
            let case = Case::new(shape.either(&mut random));
            let needed = case.table.len();
            case.compile_into(needed);
            case.compile_into(needed - 1);
            case.compile_into(needed + random.within(1, 100));
            case.compile_into(random.below(needed));
            assert!(case.check(&case.table));

            inherited += usize::from(inherited_matches(&case) > 0);
            middle += usize::from(transitions_into_the_middle(&case) > 0);
            let rules = &case.set.rules;
            repeated += usize::from(
                (0..rules.len()).any(|i| rules[..i].iter().any(|rule| rule.left == rules[i].left)),
            );
            symbols_seen[usize::from(case.set.symbols)] += 1;
            for rule in rules {
                match &rule.right {
                    Right::Symbols(right) => lengths_seen[right.len()] += 1,
                    Right::Verdict(verdict) => verdicts_seen[usize::from(*verdict)] += 1,
                }
            }
        }
    }
    // The rule sets drawn have what makes tables hard.
    assert!(inherited > 3_000, "{inherited} inherit a match");
    assert!(middle > 3_000, "{middle} fall back to a middle state");
    assert!(repeated > 3_000, "{repeated} repeat a left side");
    assert!(symbols_seen[1..].iter().all(|&count| count > 40));
    assert!(lengths_seen.iter().all(|&count| count > 1_000));
    assert!(verdicts_seen.iter().all(|&count| count > 100));
}

/// Every rule set of up to three rules whose left sides have up to three symbols out of two.
#[test]
fn all_small_rule_sets() {
    let mut lefts = Vec::new();
    for length in 1..=3 {
        for bits in 0..1u8 << length {
            lefts.push((0..length).map(|place| bits >> place & 1).collect());
        }
    }
    assert_eq!(lefts.len(), 14);
    let mut sets: Vec<Vec<Vec<u8>>> = vec![Vec::new()];
    let mut count = 0;
    for rules in 0..=3 {
        for set in &sets {
            assert_eq!(set.len(), rules);
            let case = Case::new(RuleSet {
                symbols: 2,
                events: 1,
                verdicts: 2,
                rules: set.iter().map(|left| verdict(left, 1)).collect(),
            });
            case.compile_into(case.table.len());
            assert!(case.check(&case.table));
            count += 1;
        }
        sets = sets
            .iter()
            .flat_map(|set| {
                lefts.iter().map(|left: &Vec<u8>| {
                    let mut longer = set.clone();
                    longer.push(left.clone());
                    longer
                })
            })
            .collect();
    }
    assert_eq!(count, 1 + 14 + 196 + 2_744);
}

/// 64 rules of 8 symbols, over alphabets that make left sides overlap or keep them apart.
#[test]
fn full_rule_sets() {
    let mut random = Random::new(102);
    let mut most = 0;
    for (symbols, used) in [
        (1, 1),
        (2, 2),
        (3, 2),
        (3, 3),
        (5, 5),
        (12, 12),
        (32, 1),
        (32, 2),
        (32, 4),
        (32, 32),
    ] {
        let set = random::full(&mut random, symbols, used);
        let with_marks = random::with_marks(&mut random, set.clone());
        for case in [set, with_marks].map(Case::new) {
            most = most.max(case.states());
            let needed = case.table.len();
            case.compile_into(needed);
            case.compile_into(needed - 1);
            case.compile_into(needed + 1_000);
            assert!(case.check(&case.table));
        }
    }
    assert!(most > 400, "{most} states");
}

/// Left sides over two symbols that overlap as much as 64 of them can.
#[test]
fn overlapping_rule_sets() {
    for symbols in [2, 3, 32] {
        let case = Case::new(random::overlapping(symbols));
        assert_eq!(case.states(), 255);
        case.compile_into(case.table.len());
        case.compile_into(case.table.len() - 1);
        assert!(case.check(&case.table));
    }
}

/// The longest image and the largest table that a rule set can have, without marks and with.
#[test]
fn largest_table() {
    for (set, states, words) in [
        (random::largest(), 481, 15_875),
        (random::largest_with_marks(), 514, 16_964),
    ] {
        let case = Case::new(set);
        assert_eq!(case.image.len(), watcher::MAX_IMAGE_BYTES);
        assert_eq!(case.states(), states);
        assert_eq!(case.table.len(), words);
        for area in [
            0,
            1,
            2,
            2 + states,
            words - 1,
            words,
            words + 1,
            watcher::MAX_TABLE_WORDS - 1,
            watcher::MAX_TABLE_WORDS,
            65_535,
            65_536,
            65_536 + words - 1,
            100_000,
        ] {
            case.compile_into(area);
        }
    }
    assert_eq!(watcher::MAX_TABLE_WORDS, 16_964);
}

/// Rule sets with every number of symbols in their bodies up to 200, in left sides alone (each symbol a new state) and with
/// right sides; without a mark, with a mark on the last rule, on every second and on all.
#[test]
fn bodies_of_every_length() {
    for (total, marks) in (0..=200u8).flat_map(|total| (0..4).map(move |marks| (total, marks))) {
        let lefts: Vec<Vec<u8>> = (0..total.div_ceil(8))
            .map(|rule| {
                let length = (total - 8 * rule).min(8);
                (0..length).map(|place| (rule + place) % 32).collect()
            })
            .collect();
        let rights = [
            Right::Verdict(1),
            Right::Symbols(vec![0]),
            Right::Symbols(vec![31; 8]),
        ];
        // With marks mostly one of them, so that it takes less time.
        let one = usize::from(total) % 3;
        let all = marks == 0 || (20..=30).contains(&total) || (56..=70).contains(&total);
        let rights = if all { &rights[..] } else { &rights[one..=one] };
        for right in rights {
            let case = Case::new(RuleSet {
                symbols: 32,
                events: 32,
                verdicts: 2,
                rules: lefts
                    .iter()
                    .enumerate()
                    .map(|(rule, left)| Rule {
                        marked: match marks {
                            0 => false,
                            1 => rule + 1 == lefts.len(),
                            2 => rule % 2 == 0,
                            _ => true,
                        },
                        left: left.clone(),
                        right: right.clone(),
                    })
                    .collect(),
            });
            let start = if case.set.has_mark() { 2 } else { 1 };
            assert_eq!(case.states(), start + usize::from(total));
            case.compile_into(case.table.len());
            case.compile_into(case.table.len() - 1);
            assert!(case.check(&case.table));
            let mut other = case.table.clone();
            let last = other.len() - 1;
            other[last] ^= 1;
            assert!(!case.check(&other));
        }
    }
}

/// Areas of every length up to some words more than needed.
#[test]
fn areas_of_every_length() {
    let mut random = Random::new(103);
    let mut sets = vec![random::sample()];
    for shape in Shape::ALL {
        sets.extend((0..2).map(|_| shape.rule_set(&mut random)));
        sets.extend((0..2).map(|_| shape.with_marks(&mut random)));
    }
    let (mut short, mut enough) = (0, 0);
    for set in sets {
        let case = Case::new(set);
        let needed = case.table.len();
        for area in 0..needed + 20 {
            case.compile_into(area);
        }
        short += needed;
        enough += 20;
    }
    assert!(short > 1_000 && enough == 500, "{short} short, {enough}");
}

/// An area that holds older tables, of rule sets larger and smaller: nothing of them is kept in the
/// words written, and all of them in the words beyond.
#[test]
fn one_area_for_many_rule_sets() {
    let mut random = Random::new(104);
    let mut area = vec![0xffff; 4_000];
    let mut wanted = area.clone();
    let mut refused = 0;
    for _ in 0..1_000 {
        let shape = Shape::ALL[random.below(Shape::ALL.len())];
        let case = Case::new(shape.either(&mut random));
        let lent = random.within(0, 2 * case.table.len()).min(area.len());
        let found = watcher::compile(&case.image, &mut area[..lent]);
        if lent < case.table.len() {
            assert_eq!(found, Err(watcher::Refusal::SHORT_AREA));
            refused += 1;
        } else {
            assert_eq!(found, Ok(case.table.len()));
            wanted[..case.table.len()].copy_from_slice(&case.table);
        }
        assert_eq!(area, wanted);
    }
    assert!((300..700).contains(&refused), "{refused} refused");
}
