//! Document 01's worked examples and edges, with numbers written out by hand.

mod common;

use common::calls::{go_on, offer};
use reference::monitor::{Lent, Memory};
use reference::random::sample;
use reference::{string, verdict, Rule, RuleSet};

const QUIET: u64 = 0;
const SPENT: u64 = 1;
const FULL: u64 = 2;
const FAIL: u64 = 16;

/// These rules over the first `symbols` symbols, all of them events.
fn rules(symbols: u8, rules: Vec<Rule>) -> Lent {
    Lent::of(&RuleSet {
        symbols,
        events: symbols,
        verdicts: 2,
        rules,
    })
}

/// What a monitor holds after some offers, and what they counted together.
struct Found {
    memory: Memory,
    answer: u64,
    counts: [u64; 3],
}

/// Offers events to a fresh monitor, each with this fuel; none is refused.
#[track_caller]
fn offers(lent: &Lent, events: &[u8], fuel: u32) -> Found {
    let mut found = Found {
        memory: Memory::empty(),
        answer: QUIET,
        counts: [0; 3],
    };
    for &event in events {
        let outcome = offer(lent, &mut found.memory, event, fuel);
        assert_eq!(outcome.refusal, 0);
        found.answer = outcome.out[0];
        for (sum, count) in found.counts.iter_mut().zip(&outcome.out[1..]) {
            *sum += count;
        }
    }
    found
}

/// The sample's four lines.
#[test]
fn sample_lines() {
    let (lock, take, free, held) = (0, 1, 2, 3);
    let lent = Lent::of(&sample());
    let mut memory = Memory::empty();
    assert_eq!(offer(&lent, &mut memory, lock, 1_000).out, [QUIET, 1, 0, 0]);
    assert_eq!((memory.head, memory.bytes[0]), ([1, 0, 0, 0], lock));
    assert_eq!(memory.words[0], 1);
    assert_eq!(offer(&lent, &mut memory, take, 1_000).out, [QUIET, 2, 1, 1]);
    assert_eq!((memory.head, memory.bytes[0]), ([1, 0, 0, 0], held));
    assert_eq!(memory.words[0], 3);
    assert_eq!(offer(&lent, &mut memory, free, 1_000).out, [QUIET, 1, 1, 0]);
    assert_eq!(memory, Memory::empty());
    assert_eq!(offer(&lent, &mut memory, take, 1_000).out, [FAIL, 1, 1, 0]);
    assert_eq!(memory.head, [0, 0, 1, 2]);
}

#[test]
fn c1_spent_without_fuel() {
    let found = offers(&rules(1, vec![]), &[0], 0);
    assert_eq!((found.answer, found.counts), (SPENT, [0, 0, 0]));
    assert_eq!(found.memory.head, [0, 1, 0, 0]);
}

#[test]
fn c2_quiet_with_the_last_fuel() {
    let found = offers(&rules(1, vec![]), &[0], 1);
    assert_eq!((found.answer, found.counts), (QUIET, [1, 0, 0]));
    assert_eq!(found.memory.head, [1, 0, 0, 0]);
}

#[test]
fn c3_held() {
    let found = offers(&Lent::of(&sample()), &[0, 1], 1_000);
    assert_eq!((found.answer, found.counts), (QUIET, [3, 1, 1]));
    assert_eq!(found.memory.bytes[..2], [3, 0]);
}

/// a b → c; d c → fail: the symbol put back is read in the state before the cut.
#[test]
fn c4_a_match_across_the_cut() {
    let (a, b, c, d) = (0, 1, 2, 3);
    let lent = rules(4, vec![string(&[a, b], &[c]), verdict(&[d, c], 0)]);
    let found = offers(&lent, &[d, a, b], 1_000);
    assert_eq!((found.answer, found.counts), (FAIL, [4, 2, 1]));
    assert_eq!(found.memory.head, [0, 0, 1, 1]);
}

/// b a a c → fail; a a → empty: a left side inside another.
#[test]
fn c5_a_match_inside_a_left_side() {
    let (a, b, c) = (0, 1, 2);
    let lent = rules(3, vec![verdict(&[b, a, a, c], 0), string(&[a, a], &[])]);
    let found = offers(&lent, &[b, a, a], 1_000);
    assert_eq!((found.answer, found.counts), (QUIET, [3, 1, 0]));
    assert_eq!(found.memory.head, [1, 0, 0, 0]);
    assert_eq!(found.memory.bytes[..3], [b, 0, 0]);
    assert_eq!(found.memory.words[..3], [1, 0, 0]);
}

#[test]
fn c6_growth() {
    let found = offers(&rules(1, vec![string(&[0], &[0, 0])]), &[0], 3);
    assert_eq!((found.answer, found.counts), (SPENT, [3, 3, 6]));
    assert_eq!(found.memory.head, [0, 4, 0, 0]);
}

#[test]
fn c7_a_loop() {
    let found = offers(&rules(1, vec![string(&[0], &[0])]), &[0], 9);
    assert_eq!((found.answer, found.counts), (SPENT, [9, 9, 9]));
    assert_eq!(found.memory.head, [0, 1, 0, 0]);
}

#[test]
fn c8_the_first_of_equal_rules() {
    let lent = rules(1, vec![verdict(&[0], 0), verdict(&[0], 1)]);
    let found = offers(&lent, &[0], 1_000);
    assert_eq!((found.answer, found.counts), (FAIL, [1, 1, 0]));
    assert_eq!(found.memory.head, [0, 0, 1, 0]);
    // The other way round the verdict is 1, of rule 0.
    let lent = rules(1, vec![verdict(&[0], 1), verdict(&[0], 0)]);
    assert_eq!(offers(&lent, &[0], 1_000).memory.head, [0, 0, 2, 0]);
}

#[test]
fn c9_an_offer_after_a_verdict() {
    let lent = rules(1, vec![verdict(&[0], 0)]);
    let mut found = offers(&lent, &[0], 1_000);
    assert_eq!(found.answer, FAIL);
    let again = offer(&lent, &mut found.memory, 0, 1_000);
    assert_eq!((again.refusal, again.out), (14, [0; 4]));
    assert_eq!(go_on(&lent, &mut found.memory, 1_000).refusal, 14);
}

/// a → a a with as many steps as fill the monitor, and one more.
#[test]
fn growth_to_the_edge() {
    let lent = rules(1, vec![string(&[0], &[0, 0])]);
    let spent = offers(&lent, &[0], 2_047);
    assert_eq!((spent.answer, spent.counts), (SPENT, [2_047, 2_047, 4_094]));
    assert_eq!(spent.memory.head, [0, 2_048, 0, 0]);
    let full = offers(&lent, &[0], 2_048);
    assert_eq!((full.answer, full.counts), (FULL, [2_047, 2_047, 4_094]));
    assert_eq!(full.memory, spent.memory);

    let mut memory = full.memory;
    assert_eq!(offer(&lent, &mut memory, 0, 1_000).refusal, 15);
    assert_eq!(go_on(&lent, &mut memory, 1).out, [FULL, 0, 0, 0]);
    assert_eq!(go_on(&lent, &mut memory, 65_535).out, [FULL, 0, 0, 0]);
    // Fuel steps are taken, so the fit of the next is not asked.
    assert_eq!(go_on(&lent, &mut memory, 0).out, [SPENT, 0, 0, 0]);
}

#[test]
fn fuel_at_its_edge() {
    let lent = rules(1, vec![string(&[0], &[0])]);
    let found = offers(&lent, &[0], 65_535);
    assert_eq!((found.answer, found.counts), (SPENT, [65_535; 3]));
    let mut memory = found.memory;
    let more = offer(&lent, &mut memory, 0, 65_536);
    assert_eq!((more.refusal, more.out), (13, [0; 4]));
    let more = go_on(&lent, &mut memory, 65_536);
    assert_eq!((more.refusal, more.out), (13, [0; 4]));
    assert_eq!(
        go_on(&lent, &mut memory, 65_535).out,
        [SPENT, 65_535, 65_535, 65_535]
    );
}

/// A verdict, and the last waiting symbol, reached with the last unit of fuel.
#[test]
fn the_order_of_tests() {
    let lent = Lent::of(&sample());
    assert_eq!(offers(&lent, &[1], 1).answer, FAIL);
    assert_eq!(offers(&lent, &[0], 1).answer, QUIET);
    let mut memory = offers(&lent, &[0, 1], 1).memory;
    assert_eq!(memory.head, [0, 1, 0, 0]);
    assert_eq!(go_on(&lent, &mut memory, 0).out, [SPENT, 0, 0, 0]);
    assert_eq!(go_on(&lent, &mut memory, 1).out, [QUIET, 1, 0, 0]);
    assert_eq!(go_on(&lent, &mut memory, 0).out, [QUIET, 0, 0, 0]);
}

/// A verdict keeps the rest of the string, settled and waiting.
#[test]
fn the_rest_beside_a_verdict() {
    let (a, b, c) = (0, 1, 2);
    let lent = rules(3, vec![verdict(&[b, c], 1), string(&[a, a], &[b, c, a])]);
    let mut memory = offers(&lent, &[c, a], 1_000).memory;
    let judged = offer(&lent, &mut memory, a, 1_000);
    assert_eq!(judged.out, [FAIL + 1, 3, 2, 3]);
    assert_eq!(memory.head, [1, 1, 2, 0]);
    assert_eq!((memory.bytes[0], memory.bytes[2_047]), (c, a));
}
