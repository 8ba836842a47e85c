//! Monitors that hold nearly 2,048 symbols, or as many.

mod common;

use common::calls::{batch, go_on, offer};
use reference::monitor::{Lent, Memory, State, Verdict, ROOM};
use reference::random::{Habit, Random};
use reference::{string, verdict, Right, RuleSet, Symbol};

const QUIET: u64 = 0;
const SPENT: u64 = 1;
const FULL: u64 = 2;

/// Four symbols, all of them events. `3` is in no left side.
///
/// 0 0 → 0; 1 → 2 2 2; 0 2 → verdict 2; 2 2 → empty
fn lent() -> Lent {
    Lent::of(&RuleSet {
        symbols: 4,
        events: 4,
        verdicts: 3,
        rules: vec![
            string(&[0, 0], &[0]),
            string(&[1], &[2, 2, 2]),
            verdict(&[0, 2], 2),
            string(&[2, 2], &[]),
        ],
    })
}

/// `settled` symbols 3, then `end`, all settled; and `waiting` symbols 3 behind `begin`, all waiting.
fn memory(lent: &Lent, settled: usize, end: &[Symbol], begin: &[Symbol], waiting: usize) -> Memory {
    State {
        settled: [&vec![3; settled][..], end].concat(),
        waiting: [begin, &vec![3; waiting]].concat(),
        verdict: None,
    }
    .lay_out(lent)
}

/// The last symbol that there is room for, settled by an offer and by goes-on.
#[test]
fn the_last_symbol() {
    let lent = lent();
    let mut full = memory(&lent, 2_047, &[], &[], 0);
    assert_eq!(offer(&lent, &mut full, 3, 5).out, [QUIET, 1, 0, 0]);
    assert_eq!(full.head, [2_048, 0, 0, 0]);
    assert_eq!(offer(&lent, &mut full, 3, 5).refusal, 15);
    assert_eq!(go_on(&lent, &mut full, 5).out, [QUIET, 0, 0, 0]);

    let mut waits = memory(&lent, 2_047, &[], &[], 0);
    assert_eq!(offer(&lent, &mut waits, 3, 0).out, [SPENT, 0, 0, 0]);
    assert_eq!(waits.head, [2_047, 1, 0, 0]);
    assert_eq!(offer(&lent, &mut waits, 3, 5).refusal, 15);
    assert_eq!(go_on(&lent, &mut waits, 1).out, [QUIET, 1, 0, 0]);
    assert_eq!(waits, full);
}

/// 2,048 waiting symbols become settled, however the steps are divided.
#[test]
fn all_symbols_wait() {
    let lent = lent();
    for fuel in [1, 7, 1_024, 2_047, 2_048, 65_535] {
        let mut held = memory(&lent, 0, &[], &[], 2_048);
        assert_eq!(offer(&lent, &mut held, 3, 5).refusal, 15);
        let mut steps = 0;
        while held.head[1] > 0 {
            let outcome = go_on(&lent, &mut held, fuel);
            steps += outcome.out[1];
            assert_eq!(held.head, [steps, 2_048 - steps, 0, 0]);
        }
        assert_eq!(steps, 2_048);
        assert_eq!(held, memory(&lent, 2_048, &[], &[], 0));
    }
}

/// Only the state after a step counts: a step that leaves as many symbols, or fewer, always fits.
#[test]
fn steps_that_fit_a_full_monitor() {
    let lent = lent();
    // 0 0 → 0 on the last two symbols.
    let mut held = memory(&lent, 2_046, &[0], &[0], 0);
    assert_eq!(go_on(&lent, &mut held, 1).out, [SPENT, 1, 1, 1]);
    assert_eq!(held.head, [2_046, 1, 0, 0]);
    assert_eq!(go_on(&lent, &mut held, 1).out, [QUIET, 1, 0, 0]);
    // 2 2 → empty.
    let mut held = memory(&lent, 2_046, &[2], &[2], 0);
    assert_eq!(go_on(&lent, &mut held, 1).out, [QUIET, 1, 1, 0]);
    assert_eq!(held.head, [2_046, 0, 0, 0]);
    // 0 2 → verdict 2.
    let mut held = memory(&lent, 2_000, &[0], &[2], 46);
    assert_eq!(go_on(&lent, &mut held, 65_535).out, [18, 1, 1, 0]);
    assert_eq!(held.head, [2_000, 46, 3, 2]);
}

/// 1 → 2 2 2 needs room for two symbols more.
#[test]
fn a_step_that_grows() {
    let lent = lent();
    for settled in [0, 1, 1_000, 2_044, 2_045, 2_046, 2_047] {
        for held_symbols in [2_045, 2_046, 2_047, 2_048] {
            if settled >= held_symbols {
                continue;
            }
            let mut held = memory(&lent, settled, &[], &[1], held_symbols - settled - 1);
            let outcome = go_on(&lent, &mut held, 1);
            if held_symbols <= 2_046 {
                assert_eq!(outcome.out, [SPENT, 1, 1, 3]);
                let waiting = (held_symbols - settled + 2) as u64;
                assert_eq!(held.head, [settled as u64, waiting, 0, 0]);
            } else {
                assert_eq!(outcome.out, [FULL, 0, 0, 0]);
                assert_eq!(go_on(&lent, &mut held, 0).out, [SPENT, 0, 0, 0]);
            }
            go_on(&lent, &mut held, 65_535);
        }
    }
}

/// An offer that is accepted takes the last place and may be Full at once; the next one is 15.
#[test]
fn offers_to_a_nearly_full_monitor() {
    let lent = lent();
    let mut held = memory(&lent, 10, &[], &[1], 2_035);
    assert_eq!(held.head, [10, 2_036, 0, 0]);
    assert_eq!(offer(&lent, &mut held, 1, 0).out, [SPENT, 0, 0, 0]);
    assert_eq!(offer(&lent, &mut held, 2, 9).out, [FULL, 0, 0, 0]);
    assert_eq!(held.head, [10, 2_038, 0, 0]);
    assert_eq!(held.bytes[2_045..], [3, 1, 2]);
    assert_eq!(offer(&lent, &mut held, 2, 9).refusal, 15);
    // A verdict comes before the room, and the event before both.
    held.head[2..].copy_from_slice(&[3, 2]);
    assert_eq!(offer(&lent, &mut held, 2, 9).refusal, 14);
    assert_eq!(offer(&lent, &mut held, 4, 9).refusal, 12);
    assert_eq!(go_on(&lent, &mut held, 9).refusal, 14);
}

/// A step that does not fit is not taken, though a later one would have shortened the string again.
#[test]
fn full_though_the_rest_would_shrink() {
    let lent = lent();
    // 1 → 2 2 2, after which 2 2 → empty.
    let mut held = memory(&lent, 2_046, &[], &[1], 0);
    assert_eq!(offer(&lent, &mut held, 3, 1_000).out, [FULL, 0, 0, 0]);
    let mut held = memory(&lent, 2_045, &[], &[1], 0);
    assert_eq!(go_on(&lent, &mut held, 1_000).out, [QUIET, 4, 2, 3]);
    assert_eq!(held.head, [2_046, 0, 0, 0]);
}

/// States with any number of symbols from 2,030 to 2,048, of random rule sets, divided at random.
#[test]
fn random_states_near_the_edge() {
    let mut random = Random::new(601);
    let (mut full, mut quiet, mut no_room) = (0, 0, 0);
    for round in 0..1_200 {
        let mut set = Habit::ALL[round % Habit::ALL.len()].either(&mut random);
        // A symbol that is in no left side, so that anything of it can be settled.
        let still = set.symbols;
        set.symbols += 1;
        set.events = set.symbols;
        let lent = Lent::of(&set);
        let total = random.within(2_030, ROOM);
        let end = random.below(4);
        let waiting = match random.below(3) {
            0 => random.within(0, 12),
            1 => random.within(0, total - end),
            _ => total - end,
        };
        let mut settled = vec![still; total - end - waiting];
        settled.extend(settled_end(&mut random, &set, end));
        let mut waits = random.string(waiting, set.symbols);
        if random.once_in(2) {
            // Few that match, and these first.
            waits.iter_mut().skip(3).for_each(|symbol| *symbol = still);
        }
        let mut held = State {
            settled,
            waiting: waits,
            verdict: None,
        }
        .lay_out(&lent);
        for _ in 0..4 {
            let fuel = [0, 1, 2, 20, 3_000][random.below(5)];
            let event = random.below(set.events.into()) as u8;
            let outcome = match random.below(3) {
                0 => go_on(&lent, &mut held, fuel),
                1 => offer(&lent, &mut held, event, fuel),
                _ => {
                    let events = random.string(3, set.events);
                    batch(&lent, &mut held, &events, fuel, 3);
                    offer(&lent, &mut held, event, fuel)
                }
            };
            match (outcome.refusal, outcome.out[0]) {
                (0, FULL) => full += 1,
                (0, QUIET) => quiet += 1,
                (15, _) => no_room += 1,
                _ => {}
            }
        }
    }
    assert!(full > 200, "{full} full");
    assert!(quiet > 200, "{quiet} quiet");
    assert!(no_room > 200, "{no_room} without room");
}

/// A string of up to `length` symbols in which no left side occurs.
fn settled_end(random: &mut Random, set: &RuleSet, length: usize) -> Vec<Symbol> {
    let end = random.string(length, set.symbols);
    if reference::rewriter::occurrences(set, &end).is_empty() {
        end
    } else {
        vec![set.symbols - 1; length]
    }
}

/// Verdicts of every rule beside a full monitor.
#[test]
fn verdicts_beside_a_full_monitor() {
    let mut random = Random::new(602);
    let mut tried = 0;
    for _ in 0..100 {
        let set = Habit::Judge.either(&mut random);
        let lent = Lent::of(&set);
        for (rule, right) in set.rules.iter().map(|rule| &rule.right).enumerate() {
            let &Right::Verdict(number) = right else {
                continue;
            };
            let held = State {
                settled: vec![],
                waiting: random.string(ROOM, set.symbols),
                verdict: Some(Verdict { number, rule }),
            }
            .lay_out(&lent);
            assert_eq!(offer(&lent, &mut held.clone(), 0, 9).refusal, 14);
            assert_eq!(go_on(&lent, &mut held.clone(), 9).refusal, 14);
            let outcome = batch(&lent, &mut held.clone(), &[0], 9, 1);
            assert_eq!((outcome.refusal, outcome.out), (0, [14, 0, 0, 0, 0]));
            tried += 1;
        }
    }
    assert!(tried > 150, "{tried} tried");
}
