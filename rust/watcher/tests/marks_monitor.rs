//! Monitors whose rules have a start mark: which rule wins, what a symbol's word is, and where the next step
//! starts, in numbers written by hand; and lists of calls in which the start comes back again and again.

mod common;

use common::calls::{batch, go_on, offer, refusals};
use common::list::{Call, List};
use reference::monitor::{Lent, Memory, State, Verdict};
use reference::random::{largest_with_marks, Habit, Random};
use reference::rewriter::occurrences;
use reference::{marked, string, verdict, Right, Rule, RuleSet, Symbol};

const QUIET: u64 = 0;
const SPENT: u64 = 1;
const FULL: u64 = 2;
const FAIL: u64 = 16;

/// The symbols of most rule sets here.
const A: Symbol = 0;
const B: Symbol = 1;
const C: Symbol = 2;

/// A rule set over `symbols` symbols, all of them events.
fn set(symbols: u8, rules: Vec<Rule>) -> RuleSet {
    RuleSet {
        symbols,
        events: symbols,
        verdicts: 16,
        rules,
    }
}

/// Offers events to a fresh monitor, each with much fuel; none is refused. Returns what it holds, the last
/// answer, and the summed counts.
#[track_caller]
fn offers(lent: &Lent, events: &[u8]) -> (Memory, u64, [u64; 3]) {
    let mut list = List::new(lent);
    let mut answer = QUIET;
    for &event in events {
        let outcome = list.call(Call::Offer(event, 1_000));
        assert_eq!(outcome.refusal, 0);
        answer = outcome.out[0];
    }
    list.check_from_the_start();
    let counts = [list.steps, list.rewrites, list.put_back];
    (list.memory, answer, counts)
}

/// The rule of the verdict after these events, or none while the monitor is quiet.
#[track_caller]
fn judging_rule(rules: &[Rule], events: &[u8]) -> Option<u64> {
    let (memory, answer, _) = offers(&Lent::of(&set(3, rules.to_vec())), events);
    assert_eq!(answer >= 16, memory.head[2] != 0);
    (answer >= 16).then_some(memory.head[3])
}

/// lock take → held; held free → empty; ^ take → fail.
#[test]
fn sample_with_a_mark() {
    let (lock, take, free, held) = (0, 1, 2, 3);
    let mut rules = reference::random::sample();
    rules.rules[2] = marked(verdict(&[take], 0));
    // States: 0 ^, 1 empty, 2 lock, 3 lock take, 4 held, 5 held free, 6 ^ take.
    let lent = Lent::of(&rules);
    let mut memory = Memory::empty();
    assert_eq!(offer(&lent, &mut memory, lock, 1_000).out, [QUIET, 1, 0, 0]);
    assert_eq!((memory.bytes[0], memory.words[0]), (lock, 2));
    assert_eq!(offer(&lent, &mut memory, take, 1_000).out, [QUIET, 2, 1, 1]);
    assert_eq!((memory.bytes[0], memory.words[0]), (held, 4));
    assert_eq!(offer(&lent, &mut memory, free, 1_000).out, [QUIET, 1, 1, 0]);
    assert_eq!(memory, Memory::empty());
    assert_eq!(offer(&lent, &mut memory, take, 1_000).out, [FAIL, 1, 1, 0]);
    assert_eq!(memory.head, [0, 0, 1, 2]);
    assert_eq!(offer(&lent, &mut memory, lock, 1_000).refusal, 14);

    // Behind another symbol `take` stays, and has the word of the empty string.
    let (memory, answer, counts) = offers(&lent, &[free, take, take]);
    assert_eq!((answer, counts), (QUIET, [3, 0, 0]));
    assert_eq!(memory.head, [3, 0, 0, 0]);
    assert_eq!(memory.bytes[..4], [free, take, take, 0]);
    assert_eq!(memory.words[..4], [1, 1, 1, 0]);
}

/// A quiet string in whose middle a marked left side stands, which is no occurrence.
#[test]
fn a_marked_left_side_in_the_middle() {
    // States: 0 ^, 1 empty, 2 ^ a, 3 ^ a b, 4 b, 5 b c.
    let lent = Lent::of(&set(
        3,
        vec![marked(verdict(&[A, B], 0)), verdict(&[B, C], 1)],
    ));
    let (memory, answer, counts) = offers(&lent, &[C, A, B, A, B]);
    assert_eq!((answer, counts), (QUIET, [5, 0, 0]));
    assert_eq!(memory.bytes[..5], [C, A, B, A, B]);
    assert_eq!(memory.words[..6], [1, 1, 4, 1, 4, 0]);
    assert_eq!(occurrences(lent.set(), &memory.bytes[..5]), []);
    // A call with that memory is not refused.
    assert_eq!(refusals(&lent, &memory, A, 9), [0; 3]);
    // At the start it occurs.
    let (memory, answer, _) = offers(&lent, &[A, B]);
    assert_eq!((answer, memory.head), (FAIL, [0, 0, 1, 0]));
    // `^ a b` that begins but does not go on: the rest may still match without a mark.
    let (memory, answer, _) = offers(&lent, &[A, A, B, C]);
    assert_eq!((answer, memory.head), (FAIL + 1, [2, 0, 2, 1]));
    assert_eq!(memory.words[..2], [2, 1]);
}

/// On the same span a marked rule wins, whatever the numbers; of two marked ones the lowest.
#[test]
fn marked_before_unmarked() {
    for left in [&[A][..], &[A, B], &[B, B, B]] {
        for count in 1..=4 {
            for marks in 0..1u8 << count {
                let rules: Vec<Rule> = (0..count)
                    .map(|rule| Rule {
                        marked: marks >> rule & 1 == 1,
                        ..verdict(left, rule)
                    })
                    .collect();
                let first = |marked: bool| {
                    let rule = rules.iter().position(|rule| rule.marked == marked);
                    rule.map(|rule| rule as u64)
                };
                assert_eq!(judging_rule(&rules, left), first(true).or(first(false)));
                let behind = [&[C], left].concat();
                assert_eq!(judging_rule(&rules, &behind), first(false));
            }
        }
    }
}

/// What ends first, then what begins first decide before the mark and the number: `^ a b`, `b`, `^ a b c` in
/// every order.
#[test]
fn begins_first() {
    let rules = [
        marked(verdict(&[A, B], 0)),
        verdict(&[B], 1),
        marked(verdict(&[A, B, C], 2)),
        verdict(&[A, B], 3),
    ];
    let orders = [
        [0, 1, 2],
        [0, 2, 1],
        [1, 0, 2],
        [1, 2, 0],
        [2, 0, 1],
        [2, 1, 0],
    ];
    for order in orders {
        let ordered: Vec<Rule> = order.iter().map(|&rule| rules[rule].clone()).collect();
        let place = |rule: usize| order.iter().position(|&other| other == rule);
        let place = |rule: usize| place(rule).map(|place| place as u64);
        // `^ a b` and `b` end together, and `^ a b` begins first.
        assert_eq!(judging_rule(&ordered, &[A, B]), place(0));
        assert_eq!(judging_rule(&ordered, &[C, A, B]), place(1));
        assert_eq!(judging_rule(&ordered, &[B]), place(1));
        // Without `^ a b` the `b` ends before `^ a b c` does.
        let two: Vec<Rule> = ordered
            .iter()
            .filter(|rule| **rule != rules[0])
            .cloned()
            .collect();
        let b = two
            .iter()
            .position(|rule| *rule == rules[1])
            .map(|rule| rule as u64);
        assert_eq!(judging_rule(&two, &[A, B]), b);
        // An unmarked `a b` begins before `b` too, and comes behind `^ a b`.
        for with in 0..=3 {
            let mut more = ordered.clone();
            more.insert(with, rules[3].clone());
            let at = |rule: usize| more.iter().position(|other| *other == rules[rule]);
            assert_eq!(judging_rule(&more, &[A, B]), at(0).map(|rule| rule as u64));
            assert_eq!(
                judging_rule(&more, &[A, A, B]),
                at(3).map(|rule| rule as u64)
            );
        }
    }
    // `^ a b c` alone fires at the start and nowhere else.
    assert_eq!(judging_rule(&rules[2..3], &[A, B, C]), Some(0));
    assert_eq!(judging_rule(&rules[2..3], &[A, A, B, C]), None);
    assert_eq!(judging_rule(&rules[2..3], &[A, B, A, B, C]), None);
}

/// A cut of the whole settled string leads back to the mark, by every kind of right side.
#[test]
fn the_start_comes_back() {
    // ^ a b → empty; ^ a c → a; ^ b → verdict 5; c c → b
    let rules = vec![
        marked(string(&[A, B], &[])),
        marked(string(&[A, C], &[A])),
        marked(verdict(&[B], 5)),
        string(&[C, C], &[B]),
    ];
    let lent = Lent::of(&set(3, rules));
    // a c → a, at the start again; then b cuts all of it, and b is at the start.
    let (memory, answer, counts) = offers(&lent, &[A, C, C, C, B, A, B, B]);
    assert_eq!((answer, counts), (FAIL + 5, [11, 6, 3]));
    assert_eq!(memory.head, [0, 0, 6, 2]);
    // c c → b, and what is put back stands at the start.
    let (memory, answer, counts) = offers(&lent, &[C, C]);
    assert_eq!((answer, counts), (FAIL + 5, [3, 2, 1]));
    assert_eq!(memory.head, [0, 0, 6, 2]);
    // Behind another symbol it does not.
    let (memory, answer, counts) = offers(&lent, &[A, A, C, C]);
    assert_eq!((answer, counts), (QUIET, [5, 1, 1]));
    assert_eq!(memory.bytes[..3], [A, A, B]);
    // The cut within a batch, and with the waiting symbols of one call.
    let outcome = batch(&lent, &mut Memory::empty(), &[A, B, A, B, B, A], 1, 6);
    assert_eq!(outcome.out, [14, 5, 5, 3, 0]);
    assert_eq!(outcome.answers, [0, 0, 0, 0, 21, 0x85]);
    let mut memory = State {
        waiting: vec![A, B, A, B, B, A],
        ..State::default()
    }
    .lay_out(&lent);
    assert_eq!(go_on(&lent, &mut memory, 4).out, [SPENT, 4, 2, 0]);
    assert_eq!(go_on(&lent, &mut memory, 4).out, [FAIL + 5, 1, 1, 0]);
    assert_eq!(memory.head, [0, 1, 6, 2]);
}

/// Marked rules with each kind of right side: no symbol, one, eight, a verdict.
#[test]
fn every_kind_of_right_side() {
    for length in 0..=8 {
        let right: Vec<Symbol> = vec![B; length];
        let lent = Lent::of(&set(3, vec![marked(string(&[A], &right))]));
        let (memory, answer, counts) = offers(&lent, &[A]);
        let put_back = length as u64;
        assert_eq!((answer, counts), (QUIET, [1 + put_back, 1, put_back]));
        assert_eq!(memory.bytes[..length], right);
        assert_eq!(memory.words[..length], vec![1; length]);
        // `a` is rewritten again only where nothing is left before it.
        let (_, _, counts) = offers(&lent, &[A, A]);
        let rewrites = if length == 0 { 2 } else { 1 };
        assert_eq!(counts, [2 + put_back, rewrites, put_back]);
    }
    for number in 0..16 {
        let lent = Lent::of(&set(
            3,
            vec![verdict(&[B], 9), marked(verdict(&[A], number))],
        ));
        let (memory, answer, counts) = offers(&lent, &[A]);
        assert_eq!((answer, counts), (16 + u64::from(number), [1, 1, 0]));
        assert_eq!(memory.head, [0, 0, u64::from(number) + 1, 1]);
        let (memory, answer, _) = offers(&lent, &[C, A]);
        assert_eq!((answer, memory.head), (QUIET, [2, 0, 0, 0]));
    }
}

/// A marked rule that can never fire, and one whose symbols are never offered, still make the words those
/// of a table with a mark.
#[test]
fn marked_rules_that_never_fire() {
    for rules in [
        vec![verdict(&[B], 0), marked(verdict(&[A, B, A], 1))],
        vec![verdict(&[B], 0), marked(verdict(&[C, C, C, C], 1))],
        vec![marked(verdict(&[B], 0)), marked(verdict(&[B], 1))],
    ] {
        let lent = Lent::of(&set(3, rules));
        let (memory, _, _) = offers(&lent, &[A, C]);
        assert_eq!(memory.head, [2, 0, 0, 0]);
        assert_eq!(memory.words[1], 1);
        let mut zero = memory.clone();
        zero.words[1] = 0;
        assert_eq!(refusals(&lent, &zero, A, 9), [11; 3]);
    }
}

/// `^ a → a a` grows at the start until the monitor is full: the mark needs no room.
#[test]
fn growth_at_the_start() {
    let lent = Lent::of(&set(1, vec![marked(string(&[A], &[A, A]))]));
    let mut memory = Memory::empty();
    assert_eq!(
        offer(&lent, &mut memory, A, 2_047).out,
        [SPENT, 2_047, 2_047, 4_094]
    );
    assert_eq!(memory.head, [0, 2_048, 0, 0]);
    assert_eq!(offer(&lent, &mut memory, A, 9).refusal, 15);
    assert_eq!(go_on(&lent, &mut memory, 9).out, [FULL, 0, 0, 0]);
    let mut memory = Memory::empty();
    assert_eq!(
        offer(&lent, &mut memory, A, 2_048).out,
        [FULL, 2_047, 2_047, 4_094]
    );
    // 2,048 settled symbols beside a mark: there is room for them all.
    let lent = Lent::of(&set(2, vec![marked(string(&[A], &[B]))]));
    let mut memory = State {
        settled: vec![B; 2_047],
        ..State::default()
    }
    .lay_out(&lent);
    assert_eq!(offer(&lent, &mut memory, A, 9).out, [QUIET, 1, 0, 0]);
    assert_eq!(memory.head, [2_048, 0, 0, 0]);
    assert_eq!(memory.words, vec![1; 2_048]);
    assert_eq!(offer(&lent, &mut memory, A, 9).refusal, 15);
    // 2,048 waiting ones: the first is at the start.
    let mut memory = State {
        waiting: vec![A; 2_048],
        ..State::default()
    }
    .lay_out(&lent);
    assert_eq!(go_on(&lent, &mut memory, 65_535).out, [QUIET, 2_049, 1, 1]);
    assert_eq!(memory.bytes[..3], [B, A, A]);
}

/// A verdict that a head says to be that of a marked rule is as good as another.
#[test]
fn heads_with_verdicts_of_marked_rules() {
    let lent = Lent::of(&set(
        3,
        vec![
            marked(verdict(&[A], 3)),
            marked(string(&[B], &[])),
            verdict(&[A], 3),
            marked(verdict(&[A], 4)),
        ],
    ));
    for (number, rule) in [(3, 0), (3, 2), (4, 3)] {
        for settled in [vec![], vec![C], vec![C; 2_048]] {
            let state = State {
                settled,
                waiting: vec![],
                verdict: Some(Verdict { number, rule }),
            };
            assert_eq!(refusals(&lent, &state.lay_out(&lent), 0, 9), [14, 14, 0]);
        }
    }
    for (number, rule) in [(4, 1), (5, 0), (4, 4), (4, 2), (5, 2), (4, 5)] {
        let mut memory = Memory::empty();
        memory.head[2..].copy_from_slice(&[number, rule]);
        let good = [(4, 0), (4, 2), (5, 3)].contains(&(number, rule));
        let refusal = if good { [14, 14, 0] } else { [11; 3] };
        assert_eq!(refusals(&lent, &memory, 0, 9), refusal, "{number} {rule}");
    }
}

/// In each settled place of random states: 0 for 1 and 1 for 0, and the states with and without the mark
/// that have the same symbols exchanged. None of these is as described.
#[test]
fn words_with_and_without_the_mark() {
    let mut random = Random::new(1_301);
    let (mut ones, mut twins, mut zeros) = (0, 0, 0);
    for round in 0..1_200 {
        let rules = Habit::ALL[round % Habit::ALL.len()].with_marks(&mut random);
        let lent = Lent::of(&rules);
        let states = reference::states(&rules);
        let length = random.within(1, 12);
        let mut held = random.string(length, rules.symbols);
        while !occurrences(&rules, &held).is_empty() {
            held.pop();
        }
        let memory = State {
            settled: held.clone(),
            waiting: vec![0; random.below(3)],
            verdict: None,
        }
        .lay_out(&lent);
        assert_eq!(refusals(&lent, &memory, 0, 3), [0; 3]);
        for place in 0..held.len() {
            let own = memory.words[place];
            // The mark alone is the word of no symbol.
            assert_ne!(own, 0);
            let string = &states[usize::from(own)];
            let twin = match string.first() {
                Some(&reference::MARK) => string[1..].to_vec(),
                _ => [&[reference::MARK], &string[..]].concat(),
            };
            let mut others = vec![0];
            ones += usize::from(own == 1);
            if own != 1 {
                others.push(1);
            }
            if let Some(twin) = states.iter().position(|state| *state == twin) {
                others.push(twin as u16);
                twins += usize::from(own != 1);
            }
            for other in others {
                let mut changed = memory.clone();
                changed.words[place] = other;
                assert_eq!(refusals(&lent, &changed, 0, 3), [11; 3]);
            }
        }
        // Beyond the settled symbols a word is 0, and not the empty string's.
        for place in [held.len(), held.len() + 1, 2_047] {
            let mut changed = memory.clone();
            assert_eq!(changed.words[place], 0);
            changed.words[place] = 1;
            assert_eq!(refusals(&lent, &changed, 0, 3), [11; 3]);
            zeros += 1;
        }
    }
    assert!(ones > 400, "{ones} words of the empty string");
    assert!(twins > 150, "{twins} words with a twin");
    assert_eq!(zeros, 3_600);
}

/// Settled strings with an occurrence of a marked left side, which only the start can have.
#[test]
fn settled_states_with_a_match() {
    let lent = Lent::of(&set(
        3,
        vec![marked(string(&[A, B], &[])), marked(verdict(&[C], 1))],
    ));
    for (settled, good) in [
        (&[A, B][..], false),
        (&[A, B, A], false),
        (&[A, B, B, B, B], false),
        (&[C], false),
        (&[C, A, B], false),
        (&[A], true),
        (&[B], true),
        (&[A, A, B], true),
        (&[B, C], true),
        (&[A, C, A, B, C], true),
    ] {
        let memory = State {
            settled: settled.to_vec(),
            ..State::default()
        }
        .lay_out(&lent);
        let refusal = if good { [0; 3] } else { [11; 3] };
        assert_eq!(refusals(&lent, &memory, A, 9), refusal, "{settled:?}");
    }
}

/// The same events with every fuel: each list comes to the same string after as many goes-on as it needs, and
/// with the same counts.
#[test]
fn every_fuel() {
    let mut random = Random::new(1_302);
    let mut compared = 0;
    for round in 0..120 {
        let habit = [Habit::Shrink, Habit::Judge, Habit::Mixed][round % 3];
        let lent = Lent::of(&habit.with_marks(&mut random));
        let events = random.string(6, lent.set().events);
        let mut ends: Vec<(Memory, [u64; 3])> = Vec::new();
        for fuel in 0..=8 {
            let mut list = List::new(&lent);
            for &event in &events {
                list.call(Call::Offer(event, fuel));
            }
            let mut rounds = 0;
            while list.memory.head[1] > 0 && list.memory.head[2] == 0 && rounds < 60 {
                list.call(Call::GoOn(fuel.max(1)));
                rounds += 1;
            }
            list.check_from_the_start();
            if list.events.len() == 6 && rounds < 60 {
                ends.push((list.memory, [list.steps, list.rewrites, list.put_back]));
            }
        }
        for end in &ends[1.min(ends.len())..] {
            assert_eq!(*end, ends[0]);
            compared += 1;
        }
    }
    assert!(compared > 400, "{compared} compared");
}

/// Long lists on rules that cut the string down to nothing again and again, each by marked and unmarked
/// rules, with offers, goes-on and batches of any fuel.
#[test]
fn lists_that_return_to_the_start() {
    let mut random = Random::new(1_303);
    let (mut at_start, mut elsewhere, mut verdicts) = (0, 0, 0);
    for _ in 0..250 {
        // Short left sides with short right sides, marked and not, and few verdicts.
        let symbols = random.within(2, 4) as u8;
        let rules = (0..random.within(3, 9))
            .map(|_| {
                let length = random.within(1, 3);
                let left = random.string(length, symbols);
                let right = random.below(length);
                Rule {
                    marked: random.once_in(2),
                    left,
                    right: match random.below(10) {
                        0 => Right::Verdict(random.below(16) as u8),
                        _ => Right::Symbols(random.string(right, symbols)),
                    },
                }
            })
            .collect();
        let mut rules = set(symbols, rules);
        rules.rules[0].marked = true;
        let lent = Lent::of(&rules);
        let mut list = List::new(&lent);
        for _ in 0..40 {
            let event = random.below(symbols.into()) as u8;
            let fuel = [0, 1, 2, 5, 30, 65_535][random.below(6)];
            let outcome = match random.below(4) {
                0 => list.call(Call::GoOn(fuel)),
                _ => list.call(Call::Offer(event, fuel)),
            };
            let empty = list.memory.head == [0; 4];
            at_start += usize::from(empty && outcome.out[2] > 0);
            elsewhere += usize::from(!empty && outcome.out[2] > 0);
            verdicts += usize::from(outcome.out[0] >= 16);
        }
        list.check_from_the_start();
        let events = random.string(30, symbols);
        let fuel = [1, 3, 100][random.below(3)];
        batch(&lent, &mut list.memory, &events, fuel, 30);
    }
    assert!(at_start > 400, "{at_start} come back to the start");
    assert!(elsewhere > 400, "{elsewhere} do not");
    assert!(verdicts > 30, "{verdicts} verdicts");
}

/// The largest table: marked and unmarked left sides of eight symbols, offered at the start and behind another
/// symbol.
#[test]
fn the_largest_table() {
    let rules = largest_with_marks();
    let lent = Lent::of(&rules);
    let (mut fired, mut stayed) = (0, 0);
    for (number, rule) in rules.rules.iter().enumerate() {
        for before in [None, Some(rules.rules[(number + 7) % 64].left[0])] {
            let mut list = List::new(&lent);
            for event in before.into_iter().chain(rule.left.iter().copied()) {
                // No fuel for what is put back.
                list.call(Call::Offer(event, 1));
            }
            list.check_from_the_start();
            match list.rewrites {
                0 => stayed += 1,
                _ => fired += 1,
            }
            let high = list.memory.words.iter().filter(|&&word| word > 255).count();
            assert!(high > 0 || list.memory.head[0] < 8);
        }
    }
    // Unmarked ones fire in both places, marked ones at the start alone.
    assert_eq!((fired, stayed), (64 + 32, 32));
}
