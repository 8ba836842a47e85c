//! Batches against single offers, and the ends of batches.

mod common;

use common::calls::{batch, go_on, offer};
use reference::monitor::{Lent, Memory, State, Verdict, ROOM};
use reference::random::{sample, Habit, Random};
use reference::{string, verdict, RuleSet};
use watcher::raw;

/// How the single offers of a batch went.
struct Singles {
    stop: u64,
    accepted: u64,
    counts: [u64; 3],
    answers: Vec<u8>,
}

/// Offers the events one after another with the library itself, up to the first that is refused.
#[track_caller]
fn singles(lent: &Lent, memory: &mut Memory, events: &[u8], fuel: u32) -> Singles {
    let mut found = Singles {
        stop: 0,
        accepted: 0,
        counts: [0; 3],
        answers: Vec::new(),
    };
    for &event in events {
        let mut out = [u64::MAX; 4];
        let refusal = raw::offer(
            &lent.image,
            &lent.table,
            &mut memory.head,
            &mut memory.bytes,
            &mut memory.words,
            event,
            fuel,
            &mut out,
        );
        if refusal != 0 {
            assert_eq!(out, [0; 4]);
            found.stop = refusal.into();
            return found;
        }
        found.accepted += 1;
        found.answers.push(out[0] as u8);
        for (sum, count) in found.counts.iter_mut().zip(&out[1..]) {
            *sum += count;
        }
    }
    found
}

/// Calls batch, with `more` answer bytes than events, and compares it with single offers. Returns the
/// stop.
#[track_caller]
fn compare(lent: &Lent, memory: &mut Memory, events: &[u8], fuel: u32, more: usize) -> u64 {
    let mut single = memory.clone();
    let wanted = singles(lent, &mut single, events, fuel);
    let answer_bytes = events.len() + more;
    let outcome = batch(lent, memory, events, fuel, answer_bytes);
    assert_eq!(outcome.refusal, 0);
    let [stop, accepted, steps, rewrites, put_back] = outcome.out;
    assert_eq!((stop, accepted), (wanted.stop, wanted.accepted));
    assert_eq!([steps, rewrites, put_back], wanted.counts);
    assert_eq!(*memory, single);
    let (answered, later) = outcome.answers.split_at(accepted as usize);
    assert_eq!(answered, wanted.answers);
    // The pattern that the answer bytes held.
    for (place, &byte) in (answered.len()..).zip(later) {
        assert_eq!(byte, 0x80 | place as u8);
    }
    stop
}

/// Batches one after another on random rule sets, with goes-on between them.
#[test]
fn batches_are_offers() {
    let mut random = Random::new(901);
    let mut stops = [0; 16];
    for habit in Habit::ALL {
        for _ in 0..250 {
            let set = habit.either(&mut random);
            let lent = Lent::of(&set);
            let mut memory = Memory::empty();
            for _ in 0..random.within(1, 5) {
                let length = random.within(0, 20);
                let mut events = random.string(length, set.events);
                if length > 0 && random.once_in(5) {
                    events[random.below(length)] = set.events + random.byte() % 4;
                }
                let fuel = [0, 1, 2, 7, 60][random.below(5)];
                let more = random.below(3);
                stops[compare(&lent, &mut memory, &events, fuel, more) as usize] += 1;
                go_on(&lent, &mut memory, random.within(0, 20) as u32);
            }
        }
    }
    assert!(stops[0] > 800, "{stops:?}");
    assert!(stops[12] > 200, "{stops:?}");
    assert!(stops[14] > 200, "{stops:?}");
}

/// A batch from states that are nearly full.
#[test]
fn batches_that_fill_the_monitor() {
    let mut random = Random::new(902);
    let mut stops = [0; 16];
    for round in 0..300 {
        let mut set = Habit::ALL[round % Habit::ALL.len()].either(&mut random);
        let still = set.symbols;
        set.symbols += 1;
        set.events = set.symbols;
        let lent = Lent::of(&set);
        let waiting = random.within(0, 1_000);
        let mut memory = State {
            settled: vec![still; ROOM - waiting - random.within(0, 20)],
            waiting: random.string(waiting, set.symbols),
            verdict: None,
        }
        .lay_out(&lent);
        let events = random.string(25, set.symbols);
        let fuel = [0, 1, 3, 3_000][random.below(4)];
        stops[compare(&lent, &mut memory, &events, fuel, 0) as usize] += 1;
    }
    assert!(stops[15] > 60, "{stops:?}");
    assert!(stops[14] > 10, "{stops:?}");
}

/// A batch stops at the first event that is refused, and not before.
#[test]
fn stops() {
    let lent = Lent::of(&sample());
    let (lock, take, free, held) = (0, 1, 2, 3);
    for place in 0..30 {
        let mut events: Vec<u8> = [lock, take, free].into_iter().cycle().take(30).collect();
        events[place] = held;
        let outcome = batch(&lent, &mut Memory::empty(), &events, 1_000, 30);
        assert_eq!(outcome.out[..2], [12, place as u64]);
        assert_eq!(outcome.answers[..place], vec![0; place]);
        events[place] = 0xff;
        let outcome = batch(&lent, &mut Memory::empty(), &events, 1_000, 31);
        assert_eq!(outcome.out[..2], [12, place as u64]);
    }
    // The event is looked at before the verdict.
    let outcome = batch(&lent, &mut Memory::empty(), &[take, lock], 1_000, 2);
    assert_eq!(
        (outcome.out, outcome.answers),
        ([14, 1, 1, 1, 0], vec![16, 0x81])
    );
    let outcome = batch(&lent, &mut Memory::empty(), &[take, held], 1_000, 2);
    assert_eq!(outcome.out, [12, 1, 1, 1, 0]);
    // A verdict at the last event is no stop.
    let outcome = batch(&lent, &mut Memory::empty(), &[free, take], 1_000, 2);
    assert_eq!(
        (outcome.out, outcome.answers),
        ([0, 2, 2, 1, 0], vec![0, 16])
    );
    assert_eq!(outcome.memory.head, [1, 0, 1, 2]);
}

/// Full stops no batch: while there is room the next event is accepted, and is Full again.
#[test]
fn full_is_no_stop() {
    // 0 → 0 0 0 0
    let lent = Lent::of(&RuleSet {
        symbols: 2,
        events: 2,
        verdicts: 2,
        rules: vec![string(&[0], &[0; 4])],
    });
    let mut memory = State {
        settled: vec![1; 2_044],
        waiting: vec![0; 2],
        verdict: None,
    }
    .lay_out(&lent);
    let outcome = batch(&lent, &mut memory, &[1, 0, 1, 0], 9, 5);
    assert_eq!(outcome.out, [15, 2, 0, 0, 0]);
    assert_eq!(outcome.answers, [2, 2, 0x82, 0x83, 0x84]);
    assert_eq!(memory.head, [2_044, 4, 0, 0]);
    // Without fuel they are Spent.
    memory = State {
        settled: vec![1; 2_045],
        waiting: vec![0; 1],
        verdict: None,
    }
    .lay_out(&lent);
    let outcome = batch(&lent, &mut memory, &[1, 0, 1], 0, 3);
    assert_eq!(
        (outcome.out, outcome.answers),
        ([15, 2, 0, 0, 0], vec![1, 1, 0x82])
    );
}

/// No events: nothing is accepted, and nothing stops the batch.
#[test]
fn no_events() {
    let lent = Lent::of(&sample());
    let judged = State {
        settled: vec![2; 2_048],
        waiting: vec![],
        verdict: Some(Verdict { number: 0, rule: 2 }),
    };
    let waits = State {
        waiting: vec![0, 1, 2],
        ..State::default()
    };
    for state in [State::default(), judged, waits] {
        let memory = state.lay_out(&lent);
        for answers in [0, 1, 7] {
            let mut after = memory.clone();
            let outcome = batch(&lent, &mut after, &[], 1_000, answers);
            assert_eq!((outcome.refusal, outcome.out), (0, [0; 5]));
            // Nor does it run what waits.
            assert_eq!(after, memory);
        }
    }
}

/// The most events that a batch takes.
#[test]
fn the_largest_batch() {
    let lent = Lent::of(&sample());
    let events: Vec<u8> = (0..65_535).map(|place| (place % 3) as u8).collect();
    let outcome = batch(&lent, &mut Memory::empty(), &events, 1_000, 65_540);
    assert_eq!(outcome.out, [0, 65_535, 4 * 21_845, 2 * 21_845, 21_845]);
    assert_eq!(outcome.memory, Memory::empty());
}

/// Counts of more than 24 bits, by a rule that goes on for ever: 0 → 0. The reference would take long
/// for so many steps; what they leave is plain.
#[test]
fn large_counts() {
    let lent = Lent::of(&RuleSet {
        symbols: 2,
        events: 2,
        verdicts: 2,
        rules: vec![string(&[0], &[0])],
    });
    let waits = |ones| State {
        waiting: [&[0][..], &vec![1; ones]].concat(),
        ..State::default()
    };
    let mut memory = waits(0).lay_out(&lent);
    let mut out = [u64::MAX; 5];
    let mut answers = [0xff; 301];
    let refusal = raw::batch(
        &lent.image,
        &lent.table,
        &mut memory.head,
        &mut memory.bytes,
        &mut memory.words,
        &[1; 300],
        65_535,
        &mut answers,
        &mut out,
    );
    let many = 300 * 65_535;
    assert!(many > 1 << 24);
    assert_eq!((refusal, out), (0, [0, 300, many, many, many]));
    assert_eq!(memory, waits(300).lay_out(&lent));
    assert_eq!(answers[..300], [1; 300]);
    assert_eq!(answers[300], 0xff);
}

/// Each verdict's answer byte.
#[test]
fn verdict_bytes() {
    for number in 0..16 {
        let lent = Lent::of(&RuleSet {
            symbols: 2,
            events: 1,
            verdicts: 16,
            rules: vec![verdict(&[1], 0), verdict(&[0, 0], number)],
        });
        let mut memory = Memory::empty();
        let outcome = batch(&lent, &mut memory, &[0, 0, 0], 5, 3);
        assert_eq!(outcome.out, [14, 2, 2, 1, 0]);
        assert_eq!(outcome.answers, [0, 16 + number, 0x82]);
        assert_eq!(memory.head, [0, 0, u64::from(number) + 1, 1]);
        let single = &mut Memory::empty();
        offer(&lent, single, 0, 5);
        assert_eq!(offer(&lent, single, 0, 5).out[0], 16 + u64::from(number));
    }
}
