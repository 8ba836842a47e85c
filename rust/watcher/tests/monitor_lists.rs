//! Lists of calls from a fresh monitor. After each call the library is compared with the naive
//! monitor, and the string, the verdict and the summed counts with the plain rewriter.

mod common;

use common::list::{Call, List};
use reference::monitor::Lent;
use reference::random::{self, Habit, Random, Shape};
use reference::{string, verdict, Right, Rule, RuleSet};

/// How often calls ended in each way.
#[derive(Debug, Default)]
struct Seen {
    quiet: usize,
    spent: usize,
    full: usize,
    verdict: usize,
    refused: [usize; 17],
    /// Calls that made more than one rewrite.
    rewrites: usize,
}

impl Seen {
    /// Makes a call and counts how it ended.
    #[track_caller]
    fn call(&mut self, list: &mut List, call: Call) {
        let outcome = list.call(call);
        self.rewrites += usize::from(outcome.out[2] > 1);
        match (outcome.refusal, outcome.out[0]) {
            (0, 0) => self.quiet += 1,
            (0, 1) => self.spent += 1,
            (0, 2) => self.full += 1,
            (0, _) => self.verdict += 1,
            (refusal, _) => self.refused[refusal as usize] += 1,
        }
    }
}

/// A call with a fuel up to `most`: mostly an offer of an event, now and then of another byte, or of
/// fuel above the range.
fn draw(random: &mut Random, set: &RuleSet, most: usize) -> Call {
    let fuel = match random.below(12) {
        0 => 0,
        1 => 1,
        2..=4 => random.within(0, most.min(8)) as u32,
        5 if random.once_in(4) => 65_536 + random.below(3) as u32,
        _ => random.within(0, most) as u32,
    };
    let event = match random.below(24) {
        0 => random.byte(),
        1 => set.symbols - 1,
        _ => random.below(set.events.into()) as u8,
    };
    if random.once_in(3) {
        Call::GoOn(fuel)
    } else {
        Call::Offer(event, fuel)
    }
}

/// Short lists, checked from the start after each call.
#[test]
fn short_lists() {
    let mut random = Random::new(501);
    let mut seen = Seen::default();
    for habit in Habit::ALL {
        for round in 0..900 {
            let lent = Lent::of(&match round {
                0..500 => habit.rule_set(&mut random),
                _ => habit.with_marks(&mut random),
            });
            let mut list = List::new(&lent);
            for _ in 0..random.within(0, 14) {
                let call = draw(&mut random, lent.set(), 12);
                seen.call(&mut list, call);
                list.check_from_the_start();
            }
        }
    }
    assert!(seen.quiet > 1_500, "{seen:?}");
    assert!(seen.spent > 1_500, "{seen:?}");
    assert!(seen.verdict > 250, "{seen:?}");
    assert!(seen.rewrites > 1_000, "{seen:?}");
    assert!(seen.refused[12] > 200, "{seen:?}");
    assert!(seen.refused[13] > 100, "{seen:?}");
    assert!(seen.refused[14] > 1_000, "{seen:?}");
}

/// Longer lists with more fuel, checked from the start at their ends.
#[test]
fn long_lists() {
    let mut random = Random::new(502);
    let mut seen = Seen::default();
    for habit in Habit::ALL {
        for round in 0..28 {
            let mut set = match round {
                0..16 => habit.rule_set(&mut random),
                _ => habit.with_marks(&mut random),
            };
            // Many verdicts would end most lists early.
            for rule in &mut set.rules {
                if matches!(rule.right, Right::Verdict(_)) && random.once_in(2) {
                    rule.right = Right::Symbols(rule.left[1..].to_vec());
                }
            }
            let lent = Lent::of(&set);
            let mut list = List::new(&lent);
            for _ in 0..random.within(30, 120) {
                let call = draw(&mut random, lent.set(), 60);
                seen.call(&mut list, call);
            }
            list.check_from_the_start();
        }
    }
    assert!(seen.quiet > 1_500, "{seen:?}");
    assert!(seen.spent > 1_500, "{seen:?}");
    assert!(seen.verdict > 10, "{seen:?}");
    assert!(seen.rewrites > 1_500, "{seen:?}");
    assert!(seen.refused[14] > 300, "{seen:?}");
}

/// Rule sets of every shape, with up to 32 symbols and 64 rules. Events come as left sides, whole or
/// cut, so that the rules run.
#[test]
fn rule_sets_of_every_shape() {
    let mut random = Random::new(503);
    let mut sets = vec![
        random::largest(),
        random::largest_with_marks(),
        random::overlapping(2),
        random::overlapping(32),
        random::full(&mut random, 32, 2),
        random::full(&mut random, 3, 3),
    ];
    for shape in Shape::ALL {
        sets.extend((0..25).map(|_| shape.rule_set(&mut random)));
        sets.extend((0..25).map(|_| shape.with_marks(&mut random)));
    }
    let mut seen = Seen::default();
    for mut set in sets {
        set.events = set.symbols;
        let lent = Lent::of(&set);
        for _ in 0..2 {
            let mut list = List::new(&lent);
            for _ in 0..10 {
                let events = match set.rules.len() {
                    0 => random.string(3, set.symbols),
                    rules => {
                        let left = &set.rules[random.below(rules)].left;
                        left[..random.within(1, left.len())].to_vec()
                    }
                };
                for event in events {
                    let fuel = random.within(0, 30) as u32;
                    seen.call(&mut list, Call::Offer(event, fuel));
                }
                seen.call(&mut list, Call::GoOn(random.within(0, 10) as u32));
            }
            list.check_from_the_start();
        }
    }
    assert!(seen.quiet > 800, "{seen:?}");
    assert!(seen.spent > 800, "{seen:?}");
    assert!(seen.verdict > 80, "{seen:?}");
    assert!(seen.rewrites > 300, "{seen:?}");
}

/// Every rule whose sides have one or two symbols out of two (right sides none too, or a verdict).
fn small_rules() -> Vec<Rule> {
    let mut strings: Vec<Vec<u8>> = Vec::new();
    for length in 0..=2 {
        for bits in 0..1u8 << length {
            strings.push((0..length).map(|place| bits >> place & 1).collect());
        }
    }
    let mut rules: Vec<Rule> = Vec::new();
    for left in &strings[1..] {
        rules.extend(strings.iter().map(|right| string(left, right)));
        rules.push(verdict(left, 1));
    }
    rules
}

/// Every rule set of up to two such rules, with every string of four events.
#[test]
fn all_small_rule_sets() {
    let rules = small_rules();
    assert_eq!(rules.len(), 6 * 8);
    let mut sets = vec![vec![]];
    for first in &rules {
        sets.push(vec![first.clone()]);
        sets.extend(
            rules
                .iter()
                .map(|second| vec![first.clone(), second.clone()]),
        );
    }
    let mut seen = Seen::default();
    for (number, rules) in sets.into_iter().enumerate() {
        let lent = Lent::of(&RuleSet {
            symbols: 2,
            events: 2,
            verdicts: 2,
            rules,
        });
        for events in 0..16u8 {
            // The fuel and the go-on differ from list to list.
            let salt = number + usize::from(events);
            let fuel = [5, 2, 1, 0][salt % 4];
            let mut list = List::new(&lent);
            for place in 0..4 {
                seen.call(&mut list, Call::Offer(events >> place & 1, fuel));
                if place == salt / 4 % 4 {
                    seen.call(&mut list, Call::GoOn(3));
                }
            }
            list.check_from_the_start();
        }
    }
    assert!(seen.quiet > 30_000, "{seen:?}");
    assert!(seen.spent > 30_000, "{seen:?}");
    assert!(seen.verdict > 3_000, "{seen:?}");
    assert!(seen.rewrites > 10_000, "{seen:?}");
}

/// The same pairs of rules with the one marked, the other, or both, and some of these strings of events.
#[test]
fn all_small_rule_sets_with_marks() {
    let rules = small_rules();
    let mut seen = Seen::default();
    let mut number = 0;
    for first in &rules {
        for second in &rules {
            for marks in [[true, false], [false, true], [true, true]] {
                let mut pair = vec![first.clone(), second.clone()];
                pair[0].marked = marks[0];
                pair[1].marked = marks[1];
                let lent = Lent::of(&RuleSet {
                    symbols: 2,
                    events: 2,
                    verdicts: 2,
                    rules: pair,
                });
                number += 1;
                for place in 0..3 {
                    let events = (5 * number + 6 * place) % 16;
                    let fuel = [5, 2, 0][(number + place) % 3];
                    let mut list = List::new(&lent);
                    for bit in 0..4 {
                        seen.call(&mut list, Call::Offer((events >> bit & 1) as u8, fuel));
                    }
                    seen.call(&mut list, Call::GoOn(9));
                    list.check_from_the_start();
                }
            }
        }
    }
    assert!(seen.quiet > 20_000, "{seen:?}");
    assert!(seen.spent > 20_000, "{seen:?}");
    assert!(seen.verdict > 2_000, "{seen:?}");
    assert!(seen.rewrites > 5_000, "{seen:?}");
}

/// Rules that grow until the monitor is full, and offers and goes-on from there.
#[test]
fn lists_that_fill_the_monitor() {
    let mut random = Random::new(504);
    let mut seen = Seen::default();
    for _ in 0..30 {
        let mut set = Habit::Grow.either(&mut random);
        for rule in &mut set.rules {
            if matches!(rule.right, Right::Verdict(_)) {
                rule.right = Right::Symbols(vec![rule.left[0]; 8]);
            }
        }
        let lent = Lent::of(&set);
        let mut list = List::new(&lent);
        for _ in 0..12 {
            let event = random.below(set.events.into()) as u8;
            let fuel = random.within(100, 900) as u32;
            seen.call(&mut list, Call::Offer(event, fuel));
            seen.call(&mut list, Call::GoOn(random.within(0, 3) as u32));
        }
        list.check_from_the_start();
    }
    assert!(seen.full > 40, "{seen:?}");
    assert!(seen.spent > 80, "{seen:?}");
    assert!(seen.refused[15] > 10, "{seen:?}");
}

/// As much fuel as a call takes, on rules that go on for ever.
#[test]
fn all_the_fuel() {
    let mut random = Random::new(505);
    let mut most = 0;
    for _ in 0..12 {
        let lent = Lent::of(&Habit::Loop.rule_set(&mut random));
        let mut list = List::new(&lent);
        for _ in 0..6 {
            let event = random.below(lent.set().events.into()) as u8;
            list.call(Call::Offer(event, 65_535 - random.below(2) as u32));
        }
        list.check_from_the_start();
        most = most.max(list.rewrites);
    }
    assert!(most > 5 * 65_534, "{most} rewrites");
}

/// An empty list: the rewriter has nothing to rewrite.
#[test]
fn the_empty_list() {
    let lent = Lent::of(&random::sample());
    let list = List::new(&lent);
    list.check_from_the_start();
    assert_eq!(list.string(), []);
    assert_eq!(list.memory.head, [0; 4]);
}
