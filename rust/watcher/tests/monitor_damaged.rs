//! Random and damaged input: anything at all is refused with the right number or taken as what it is,
//! and nothing outside of what was lent is read or written.

mod common;

use common::calls::{batch, fresh, go_on, offer};
use reference::monitor::{Lent, Memory, ROOM};
use reference::random::{largest, largest_with_marks, sample, Habit, Random, Shape};
use reference::Right;

/// The lengths that areas have here.
fn length(random: &mut Random) -> usize {
    match random.below(6) {
        0 => random.below(8),
        1 => random.within(ROOM - 2, ROOM + 2),
        2 => random.below(2 * ROOM),
        _ => ROOM,
    }
}

/// A head word: small, near a limit, or of any bits.
fn head_word(random: &mut Random) -> u64 {
    match random.below(6) {
        0 | 1 => random.below(4) as u64,
        2 => random.within(ROOM - 2, ROOM + 2) as u64,
        3 => u64::MAX - random.below(3) as u64,
        4 => random.bits() >> random.below(64),
        _ => 0,
    }
}

/// Makes the four calls with this memory, and returns the refusals seen.
#[track_caller]
fn all_calls(random: &mut Random, lent: &Lent, memory: &Memory) -> [u32; 4] {
    let fuel = match random.below(6) {
        0 => random.bits() as u32,
        1 => 65_536,
        _ => random.below(40) as u32,
    };
    let event = match random.below(5) {
        0 => random.byte(),
        _ => random.below(3) as u8,
    };
    let count = random.below(6);
    let events = random.string(count, 4);
    let answers = match random.below(4) {
        0 => random.below(8),
        _ => count,
    };
    [
        fresh(&mut memory.clone()),
        offer(lent, &mut memory.clone(), event, fuel).refusal,
        go_on(lent, &mut memory.clone(), fuel).refusal,
        batch(lent, &mut memory.clone(), &events, fuel, answers).refusal,
    ]
}

/// Random heads, areas of random lengths, filled with zeros, symbols or any bytes; some good ones too.
#[test]
fn random_memories() {
    let mut random = Random::new(1_001);
    let lents: Vec<Lent> = [sample(), Shape::NoRules.rule_set(&mut random)]
        .iter()
        .chain(&Habit::ALL.map(|habit| habit.rule_set(&mut random)))
        .chain(&Habit::ALL.map(|habit| habit.with_marks(&mut random)))
        .map(Lent::of)
        .collect();
    let mut seen = [0; 17];
    for round in 0..12_000 {
        let lent = &lents[round % lents.len()];
        let (bytes, words) = (length(&mut random), length(&mut random));
        let mut memory = Memory {
            head: [0; 4].map(|_| head_word(&mut random)),
            bytes: vec![0; bytes],
            words: vec![0; words],
        };
        match random.below(4) {
            0 => memory.bytes = (0..bytes).map(|_| random.byte()).collect(),
            1 => memory.bytes = random.string(bytes, lent.set().symbols),
            _ => {}
        }
        if random.once_in(4) {
            memory.words = (0..words).map(|_| random.word()).collect();
        }
        if random.once_in(3) {
            // Nothing held, and now and then a verdict, that of its rule or another.
            memory = Memory::empty();
            memory.head[2] = random.below(4) as u64;
            memory.head[3] = random.below(4) as u64;
            let rule = lent.set().rules.get(memory.head[3] as usize);
            if let Some(Right::Verdict(verdict)) = rule.map(|rule| &rule.right) {
                if random.once_in(2) {
                    memory.head[2] = u64::from(*verdict) + 1;
                }
            }
        }
        for refusal in all_calls(&mut random, lent, &memory) {
            seen[refusal as usize] += 1;
        }
    }
    for refusal in [0, 10, 11, 12, 13, 14] {
        assert!(seen[refusal] > 40, "{refusal}: {seen:?}");
    }
}

/// Images and tables of random bytes and words, of any length.
#[test]
fn random_images_and_tables() {
    let mut random = Random::new(1_002);
    let mut seen = [0; 17];
    for _ in 0..6_000 {
        let bytes = random.below(60);
        let words = random.below(60);
        let mut image: Vec<u8> = (0..bytes).map(|_| random.below(6) as u8).collect();
        let mut table: Vec<u16> = (0..words).map(|_| random.below(6) as u16).collect();
        if random.once_in(3) {
            image = reference::encode(&sample());
        } else if random.once_in(3) {
            image = vec![random.below(4) as u8, 0, 2, 1];
            table = vec![1, 1, 0, 0];
        }
        let lent = Lent::new(&image, &table);
        for refusal in all_calls(&mut random, &lent, &Memory::empty()) {
            seen[refusal as usize] += 1;
        }
    }
    for refusal in [0, 7, 9] {
        assert!(seen[refusal] > 400, "{refusal}: {seen:?}");
    }
}

/// Image, table, head and areas of a list of calls, each damaged a little now and then. Whatever the
/// damage, the list goes on from what the call left.
#[test]
fn damaged_lists() {
    let mut random = Random::new(1_003);
    let mut seen = [0; 17];
    for round in 0..800 {
        let set = Habit::ALL[round % Habit::ALL.len()].either(&mut random);
        let good = Lent::of(&set);
        let mut memory = Memory::empty();
        for _ in 0..12 {
            let mut lent = good.clone();
            match random.below(12) {
                0 => {
                    let mut image = good.image.clone();
                    let place = random.below(image.len());
                    image[place] = random.below(9) as u8;
                    lent = Lent::new(&image, &good.table);
                }
                1 => {
                    let mut table = good.table.clone();
                    let place = random.below(table.len());
                    table[place] = random.below(good.table[0].into()) as u16;
                    lent = Lent::new(&good.image, &table);
                }
                2 => {
                    let place = random.below(ROOM);
                    let held = memory.bytes[place];
                    memory.bytes[place] ^= 1 << random.below(8);
                    let refusals = all_calls(&mut random, &lent, &memory);
                    seen[refusals[2] as usize] += 1;
                    memory.bytes[place] = held;
                }
                3 => {
                    let place = random.below(ROOM);
                    let held = memory.words[place];
                    memory.words[place] ^= 1 << random.below(16);
                    let refusals = all_calls(&mut random, &lent, &memory);
                    seen[refusals[2] as usize] += 1;
                    memory.words[place] = held;
                }
                4 => {
                    let place = random.below(4);
                    let held = memory.head[place];
                    memory.head[place] = head_word(&mut random);
                    let refusals = all_calls(&mut random, &lent, &memory);
                    seen[refusals[2] as usize] += 1;
                    memory.head[place] = held;
                }
                _ => {}
            }
            let event = random.below(set.events.into()) as u8;
            let refusal = offer(&lent, &mut memory, event, 12).refusal;
            seen[refusal as usize] += 1;
        }
    }
    for refusal in [0, 7, 9, 11, 14] {
        assert!(seen[refusal] > 100, "{refusal}: {seen:?}");
    }
}

/// The monitor of one rule set lent with the image and the table of another.
#[test]
fn monitors_of_other_rule_sets() {
    let mut random = Random::new(1_004);
    let mut sets: Vec<_> = (0..20)
        .map(|round| Habit::ALL[round % Habit::ALL.len()].either(&mut random))
        .collect();
    sets.extend([sample(), largest(), largest_with_marks()]);
    let lents: Vec<Lent> = sets.iter().map(Lent::of).collect();
    let mut seen = [0; 17];
    for lent in &lents {
        let mut memory = Memory::empty();
        for _ in 0..8 {
            let event = random.below(lent.set().events.into()) as u8;
            offer(lent, &mut memory, event, 5);
        }
        for other in &lents {
            seen[go_on(other, &mut memory.clone(), 3).refusal as usize] += 1;
            // The table of another image.
            let mixed = Lent::new(&other.image, &lent.table);
            seen[go_on(&mixed, &mut memory.clone(), 3).refusal as usize] += 1;
        }
    }
    for refusal in [0, 9, 11] {
        assert!(seen[refusal] > 20, "{refusal}: {seen:?}");
    }
}
