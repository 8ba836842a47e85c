//! Refusal 11: head and areas that are not as described, changed in every place; and neighbours of
//! these that are as described.

mod common;

use common::calls::{batch, go_on, offer, refusals};
use reference::monitor::{Lent, Memory, State, Verdict, ROOM};
use reference::random::{largest, largest_with_marks, sample, Habit, Random};
use reference::rewriter::occurrences;
use reference::{marked, string, verdict, RuleSet, Symbol};

/// Five symbols, three events, and rules of both kinds. Rules 1 and 3 can never fire: rule 0 has the
/// left side of rule 1, and that of rule 3 begins with that of rule 2, which is rewritten before.
///
/// 0 1 → verdict 2; 0 1 → verdict 0; 2 → 3 4; 2 4 → verdict 1; 3 0 → 4
fn rules() -> RuleSet {
    RuleSet {
        symbols: 5,
        events: 3,
        verdicts: 4,
        rules: vec![
            verdict(&[0, 1], 2),
            verdict(&[0, 1], 0),
            string(&[2], &[3, 4]),
            verdict(&[2, 4], 1),
            string(&[3, 0], &[4]),
        ],
    }
}

/// The same rules with marks, and two marked rules more. The same strings can be settled: `3 4` stands in
/// their middle, where `^ 3 4` does not occur. Rule 6 can never fire.
///
/// ^ 0 1 → verdict 2; 0 1 → verdict 0; 2 → 3 4; ^ 2 4 → verdict 1; 3 0 → 4; ^ 3 4 → empty; ^ 3 4 → 1
fn rules_with_marks() -> RuleSet {
    let mut set = rules();
    set.rules[0].marked = true;
    set.rules[3].marked = true;
    set.rules.push(marked(string(&[3, 4], &[])));
    set.rules.push(marked(string(&[3, 4], &[1])));
    set
}

/// Image and table of both.
fn both() -> [Lent; 2] {
    [Lent::of(&rules()), Lent::of(&rules_with_marks())]
}

/// A state without a verdict.
fn state(settled: &[Symbol], waiting: &[Symbol]) -> State {
    State {
        settled: settled.to_vec(),
        waiting: waiting.to_vec(),
        verdict: None,
    }
}

/// Settled symbols in which no left side occurs: `0 0 3 4 1` over and over.
fn settled(length: usize) -> Vec<Symbol> {
    [0, 0, 3, 4, 1].into_iter().cycle().take(length).collect()
}

/// States of every size, with and without a gap between the settled and the waiting symbols.
fn states() -> Vec<State> {
    let waiting = |length| [1, 0, 4, 2, 3].into_iter().cycle().take(length).collect();
    let sizes = [
        (0, 0),
        (1, 0),
        (0, 1),
        (3, 2),
        (40, 0),
        (0, 40),
        (37, 41),
        (1_024, 1_000),
        (1_024, 1_023),
        (1_024, 1_024),
        (2_047, 0),
        (2_048, 0),
        (2_047, 1),
        (0, 2_047),
        (0, 2_048),
        (1, 2_047),
    ];
    sizes
        .into_iter()
        .map(|(a, w)| State {
            settled: settled(a),
            waiting: waiting(w),
            verdict: None,
        })
        .collect()
}

/// Whether a go-on without fuel finds head and areas as described.
#[track_caller]
fn described(lent: &Lent, memory: &Memory) -> bool {
    described_in_turn(lent, memory, 0)
}

/// The same, by a go-on, an offer or a batch, whose turn it is.
#[track_caller]
fn described_in_turn(lent: &Lent, memory: &Memory, turn: usize) -> bool {
    let refusal = match turn % 3 {
        0 => go_on(lent, &mut memory.clone(), 0).refusal,
        1 => offer(lent, &mut memory.clone(), 0, 0).refusal,
        _ => batch(lent, &mut memory.clone(), &[0], 0, 1).refusal,
    };
    match refusal {
        0 | 14 | 15 => true,
        11 => false,
        other => panic!("refused {other}"),
    }
}

/// Expects 11 of every operation.
#[track_caller]
fn expect_11(lent: &Lent, memory: &Memory) {
    assert_eq!(
        refusals(lent, memory, 0, 9),
        [11; 3],
        "head {:?}",
        memory.head
    );
    // 11 comes before 12, 13 and 16.
    assert_eq!(refusals(lent, memory, 9, 65_536), [11; 3]);
    assert_eq!(batch(lent, &mut memory.clone(), &[0, 0], 9, 1).refusal, 11);
}

#[test]
fn every_state_is_described() {
    for lent in both() {
        for state in states() {
            assert!(described(&lent, &state.lay_out(&lent)));
        }
    }
}

/// Each head word changed to values around its own, powers of two, and the largest.
#[test]
fn each_head_word_changed() {
    for lent in both() {
        change_each_head_word(&lent);
    }
}

fn change_each_head_word(lent: &Lent) {
    let mut values: Vec<u64> = vec![
        0, 1, 2, 3, 4, 5, 6, 15, 16, 17, 63, 64, 65, 255, 2_047, 2_048,
    ];
    values.extend([
        2_049,
        4_096,
        65_535,
        65_536,
        u64::MAX - 2_048,
        u64::MAX - 2_047,
    ]);
    values.extend([u64::MAX / 2, u64::MAX - 1, u64::MAX]);
    values.extend((8..64).map(|bit| 1 << bit));
    let (mut bad, mut good) = (0, 0);
    for state in states() {
        let memory = state.lay_out(lent);
        for word in 0..4 {
            let own = memory.head[word];
            let around = [
                own.wrapping_add(1),
                own.wrapping_sub(1),
                !own,
                own.wrapping_neg(),
            ];
            // The same number in a narrower field.
            let wrapped = (8..64).map(|bit| own.wrapping_add(1 << bit));
            for value in values.iter().copied().chain(around).chain(wrapped) {
                let mut changed = memory.clone();
                changed.head[word] = value;
                let found = [0, 1, 2].map(|turn| described_in_turn(lent, &changed, turn));
                assert!(found == [true; 3] || found == [false; 3]);
                if found[0] {
                    good += 1;
                } else {
                    bad += 1;
                }
            }
        }
    }
    assert!(bad > 8_000, "{bad} bad");
    assert!(good > 50, "{good} good");
}

/// Counts whose sum wraps round to the right one, or to a small one.
#[test]
fn counts_whose_sum_wraps() {
    for lent in both() {
        wrap_the_sum(&lent);
    }
}

fn wrap_the_sum(lent: &Lent) {
    for state in states() {
        let memory = state.lay_out(lent);
        let [a, w, ..] = memory.head;
        let sum = a + w;
        for bits in [12, 16, 31, 32, 63] {
            for pair in [
                [a + (1 << bits), w],
                [a, w + (1 << bits)],
                [a + (1 << bits), w + (1 << bits)],
            ] {
                let mut changed = memory.clone();
                changed.head[..2].copy_from_slice(&pair);
                expect_11(lent, &changed);
            }
        }
        for first in [
            u64::MAX,
            u64::MAX - 1,
            u64::MAX - 2_047,
            1 << 63,
            u64::from(u32::MAX),
        ] {
            for target in [sum, 0, 1, 2_048] {
                let second = target.wrapping_sub(first);
                for pair in [[first, second], [second, first]] {
                    let mut changed = memory.clone();
                    changed.head[..2].copy_from_slice(&pair);
                    expect_11(lent, &changed);
                }
            }
        }
        for pair in [
            [u64::MAX; 2],
            [1 << 63; 2],
            [2_049, 0],
            [0, 2_049],
            [1_025, 1_024],
        ] {
            let mut changed = memory.clone();
            changed.head[..2].copy_from_slice(&pair);
            expect_11(lent, &changed);
        }
    }
}

/// Each byte of the area changed, to a symbol and to bytes that are none.
#[test]
fn each_byte_changed() {
    for lent in both() {
        change_each_byte(&lent);
    }
}

fn change_each_byte(lent: &Lent) {
    let (mut gap, mut no_symbol, mut other_symbol) = (0, 0, 0);
    for state in states() {
        let memory = state.lay_out(lent);
        let (a, w) = (state.settled.len(), state.waiting.len());
        for place in 0..ROOM {
            let own = memory.bytes[place];
            let values = match place % 3 {
                0 => [1, 5, 0xff],
                1 => [2, 0x80, 6],
                _ => [own ^ 1, own | 0x10, 4],
            };
            for (turn, value) in (place..).zip(values) {
                if value == own {
                    continue;
                }
                let mut changed = memory.clone();
                changed.bytes[place] = value;
                let good = described_in_turn(lent, &changed, turn);
                if (a..ROOM - w).contains(&place) {
                    assert!(!good, "byte {place} of the gap");
                    gap += 1;
                } else if value >= 5 {
                    assert!(!good, "byte {place} is no symbol");
                    no_symbol += 1;
                } else if place >= ROOM - w {
                    // Any symbols may wait, though they be no events.
                    assert!(good, "waiting byte {place}");
                    other_symbol += 1;
                }
            }
        }
    }
    assert!(gap > 30_000, "{gap} in the gap");
    assert!(no_symbol > 20_000, "{no_symbol} no symbols");
    assert!(other_symbol > 9_000, "{other_symbol} other symbols");
}

/// Each word of the area changed.
#[test]
fn each_word_changed() {
    for lent in both() {
        change_each_word(&lent);
    }
}

fn change_each_word(lent: &Lent) {
    let n = lent.table[0];
    let mut count = 0;
    for (number, state) in states().iter().enumerate() {
        let memory = state.lay_out(lent);
        for place in 0..ROOM {
            let own = memory.words[place];
            let values = match place % 4 {
                0 => [own + 1, own ^ 0x8000],
                1 => [own ^ 0x100, n],
                2 => [(own + 1 + place as u16 % (n - 1)) % n, 0xffff],
                _ => [own.wrapping_sub(1), (own + 1) % n],
            };
            for (turn, value) in (number..).zip(values) {
                assert_ne!(value, own);
                let mut changed = memory.clone();
                changed.words[place] = value;
                let good = described_in_turn(lent, &changed, turn);
                assert!(!good, "word {place} is {value}");
                count += 1;
            }
        }
    }
    assert_eq!(count, 16 * 2_048 * 2);
}

/// Words that are other states with the same match, and words of another walk: shifted, or begun
/// anew in the middle.
#[test]
fn words_of_another_walk() {
    for lent in both() {
        walk_otherwise(&lent);
    }
}

fn walk_otherwise(lent: &Lent) {
    let good = state(&settled(50), &[]).lay_out(lent);
    for place in 0..50 {
        for value in 0..lent.table[0] {
            let mut changed = good.clone();
            changed.words[place] = value;
            assert_eq!(described(lent, &changed), value == good.words[place]);
        }
        if good.words[place] != 0 {
            // From here on as if the string began here.
            let mut changed = good.clone();
            let rest = state(&settled(50)[place + 1..], &[]).lay_out(lent);
            changed.words[place] = 0;
            changed.words[place + 1..50].copy_from_slice(&rest.words[..49 - place]);
            expect_11(lent, &changed);
        }
        let mut changed = good.clone();
        changed.words.copy_within(place..50, place + 1);
        assert_eq!(described(lent, &changed), changed == good);
    }
}

/// Settled bytes that are no symbols, with the word at which the table's rows are left for the next
/// ones, as if the byte were a symbol there.
#[test]
fn settled_bytes_that_reach_other_rows() {
    for lent in both() {
        reach_other_rows(&lent);
    }
}

fn reach_other_rows(lent: &Lent) {
    let n = usize::from(lent.table[0]);
    let rows = &lent.table[2 + n..];
    let mut tried = 0;
    for before in [0, 1, 3, 50, 2_047] {
        let good = state(&settled(before), &[]).lay_out(lent);
        let last = match before {
            0 => 0,
            _ => usize::from(good.words[before - 1]),
        };
        for byte in 5..=255u8 {
            let Some(&word) = rows.get(last * 5 + usize::from(byte)) else {
                break;
            };
            let mut changed = good.clone();
            changed.head[0] += 1;
            changed.bytes[before] = byte;
            changed.words[before] = word;
            expect_11(lent, &changed);
            tried += 1;
        }
    }
    assert!(tried > 100, "{tried} tried");
}

/// Settled strings in which a left side occurs, with the words that they would have.
#[test]
fn settled_states_with_a_match() {
    for lent in both() {
        settle_a_match(&lent);
    }
}

fn settle_a_match(lent: &Lent) {
    for left in [&[0, 1][..], &[2], &[2, 4], &[3, 0]] {
        for before in [0, 1, 5, 100, 1_000, 2_040] {
            for behind in [0, 1, 5] {
                let string = [&settled(before)[..], left, &vec![4; behind]].concat();
                expect_11(lent, &state(&string, &[1]).lay_out(lent));
            }
        }
    }
    // The same with a verdict.
    let mut judged = state(&[0, 0, 1], &[]).lay_out(lent);
    judged.head[2..].copy_from_slice(&[3, 0]);
    expect_11(lent, &judged);
}

/// Every pair of a verdict and a rule, in and out of range: a verdict is that of its rule.
#[test]
fn verdicts_and_their_rules() {
    for lent in both() {
        judge_by_other_rules(&lent);
    }
}

fn judge_by_other_rules(lent: &Lent) {
    let of_rules = [(3, 0), (1, 1), (2, 3)];
    for state in states() {
        let memory = state.lay_out(lent);
        for verdict in 0..=20 {
            for rule in 0..=70 {
                let mut changed = memory.clone();
                changed.head[2..].copy_from_slice(&[verdict, rule]);
                let good = of_rules.contains(&(verdict, rule)) || (verdict, rule) == (0, 0);
                // Most of the bad ones with one operation, so that it takes less time.
                if good {
                    let refusal = if verdict == 0 { 0 } else { 14 };
                    assert_eq!(go_on(lent, &mut changed, 0).refusal, refusal);
                } else if rule < 6 && verdict < 6 {
                    expect_11(lent, &changed);
                } else {
                    assert!(!described(lent, &changed));
                }
            }
        }
        for (verdict, rule) in of_rules {
            for bit in 8..64 {
                let mut changed = memory.clone();
                changed.head[2..].copy_from_slice(&[verdict + (1 << bit), rule]);
                assert!(!described(lent, &changed));
                changed.head[2..].copy_from_slice(&[verdict, rule + (1 << bit)]);
                assert!(!described(lent, &changed));
            }
        }
    }
}

/// A rule's number beside no verdict.
#[test]
fn a_rule_without_a_verdict() {
    let lent = Lent::of(&rules());
    for rule in [1, 2, 3, 4, 5, 63, 64, u64::MAX] {
        let mut memory = Memory::empty();
        memory.head[3] = rule;
        expect_11(&lent, &memory);
    }
    // No rules at all: no verdict can stand.
    let none = Lent::of(&RuleSet {
        rules: vec![],
        ..rules()
    });
    for verdict in 0..6 {
        for rule in 0..3 {
            let mut memory = Memory::empty();
            memory.head[2..].copy_from_slice(&[verdict, rule]);
            assert_eq!(described(&none, &memory), (verdict, rule) == (0, 0));
        }
    }
}

/// The verdict of a string rule whose right side is as long as the verdict's number.
#[test]
fn the_verdict_of_a_string_rule() {
    let lent = Lent::of(&RuleSet {
        symbols: 2,
        events: 2,
        verdicts: 16,
        rules: (0..=8)
            .map(|length| string(&[0; 8], &vec![1; length]))
            .collect(),
    });
    for rule in 0..=8 {
        for verdict in 1..=16 {
            let mut memory = Memory::empty();
            memory.head[2..].copy_from_slice(&[verdict, rule]);
            expect_11(&lent, &memory);
        }
    }
}

/// Neighbours of what is refused, which are as described.
#[test]
fn good_neighbours() {
    for lent in both() {
        try_good_neighbours(&lent);
    }
}

fn try_good_neighbours(lent: &Lent) {
    // A verdict with a full monitor, settled or waiting.
    for (settled, waiting) in [
        (settled(2_048), vec![]),
        (settled(1_000), vec![2; 1_048]),
        (vec![], vec![4; 2_048]),
    ] {
        let full = State {
            settled,
            waiting,
            verdict: Some(Verdict { number: 2, rule: 0 }),
        };
        assert_eq!(refusals(lent, &full.lay_out(lent), 0, 9), [14, 14, 0]);
    }
    // Verdicts of rules that can never fire.
    for (number, rule) in [(0, 1), (1, 3)] {
        let judged = State {
            settled: vec![0],
            waiting: vec![2],
            verdict: Some(Verdict { number, rule }),
        };
        assert_eq!(refusals(lent, &judged.lay_out(lent), 0, 9), [14, 14, 0]);
    }
    // Waiting symbols that are no events, and waiting symbols that match.
    let waits = state(&[], &[3, 4, 3, 4, 0, 1, 2]).lay_out(lent);
    assert_eq!(refusals(lent, &waits, 0, 9), [0; 3]);
    // The symbols before the cut and behind it would match together.
    let split = state(&[4, 0], &[1]).lay_out(lent);
    assert_eq!(refusals(lent, &split, 0, 9), [0; 3]);
    // A byte of the gap counted as a symbol 0: among the waiting ones, or behind a settled symbol
    // that leaves state 0. The state after a settled 0 is another one here.
    let mut waiting = state(&[4], &[1, 4]).lay_out(lent);
    waiting.head[1] = 3;
    assert_eq!(refusals(lent, &waiting, 0, 9), [0; 3]);
    let mut settled = state(&[4], &[]).lay_out(lent);
    settled.head[0] = 2;
    expect_11(lent, &settled);
    let none = Lent::of(&RuleSet {
        rules: vec![],
        ..rules()
    });
    let mut settled = state(&[4], &[]).lay_out(&none);
    settled.head[0] = 2;
    assert_eq!(refusals(&none, &settled, 0, 9), [0; 3]);
}

/// Random states of random rule sets, changed in a few places at once.
#[test]
fn random_changes() {
    let mut random = Random::new(801);
    let (mut good, mut bad) = (0, 0);
    for round in 0..4_000 {
        let habits = [Habit::Judge, Habit::Mixed, Habit::Chain];
        let set = match round % 4 {
            3 => sample(),
            habit => habits[habit].either(&mut random),
        };
        let lent = Lent::of(&set);
        let length = random.within(0, 6);
        let mut held = random.string(length, set.symbols);
        while !occurrences(&set, &held).is_empty() {
            held.pop();
        }
        let waiting = random.within(0, 4);
        let mut memory = state(&held, &random.string(waiting, set.symbols)).lay_out(&lent);
        for _ in 0..random.within(0, 2) {
            // Mostly near the symbols, where a change may be as described.
            let place = match random.below(3) {
                0 => random.below(8),
                1 => ROOM - 1 - random.below(6),
                _ => random.below(ROOM),
            };
            match random.below(4) {
                0 => memory.bytes[place] = random.below(set.symbols as usize + 1) as u8,
                1 => memory.words[place] = random.below(lent.table[0].into()) as u16,
                2 => memory.head[random.below(2)] = random.within(0, 6) as u64,
                _ => {
                    let verdict = random.within(0, set.verdicts.into()) as u64;
                    let rule = random.within(0, set.rules.len()) as u64;
                    memory.head[2..].copy_from_slice(&[verdict, rule]);
                }
            }
        }
        if described(&lent, &memory) {
            good += 1;
            offer(&lent, &mut memory.clone(), 0, 20);
            batch(&lent, &mut memory, &[0, 0], 20, 3);
        } else {
            bad += 1;
            expect_11(&lent, &memory);
        }
    }
    assert!(good > 1_200, "{good} good");
    assert!(bad > 1_200, "{bad} bad");
}

/// The largest rule sets: states above 255 in the words.
#[test]
fn states_of_a_large_table() {
    for set in [largest(), largest_with_marks()] {
        change_high_states(&set);
    }
}

fn change_high_states(set: &RuleSet) {
    let lent = Lent::of(set);
    let n = lent.table[0];
    let mut high = 0;
    for rule in [0, 20, 33, 47, 63] {
        // All but the last symbol of a left side, twice.
        let begin = &set.rules[rule].left[..7];
        let held = [begin, begin].concat();
        if !occurrences(set, &held).is_empty() {
            continue;
        }
        let memory = state(&held, &[1]).lay_out(&lent);
        assert!(described(&lent, &memory));
        for place in 0..held.len() {
            high += usize::from(memory.words[place] > 255);
            for value in [
                memory.words[place] ^ 1,
                memory.words[place] ^ 0x100,
                n,
                n - 1,
            ] {
                let mut changed = memory.clone();
                changed.words[place] = value;
                assert_eq!(described(&lent, &changed), value == memory.words[place]);
            }
        }
    }
    assert!(high > 10, "{high} words above 255");
}
