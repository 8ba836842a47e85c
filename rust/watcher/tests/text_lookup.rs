//! The lookup of a name in name slots, against a look at each slot.

mod common;

use common::calls::Guarded;
use reference::random::{Random, Shape};
use reference::reader::{self, IMAGE_AREA, NAME_AREA};
use reference::texts::{self, Naming, Spacing};
use watcher::raw;

/// The bytes of 32 slots.
const SYMBOL_SLOTS: usize = 800;

/// A slot: the name's length, the name, zeros.
fn slot(name: &[u8]) -> Vec<u8> {
    let mut slot = vec![name.len() as u8];
    slot.extend(name);
    slot.resize(25, 0);
    slot
}

/// The first of 32 slots that is the slot of this name; 32 if there is none, or no such slot.
fn naive(names: &[u8], name: &[u8]) -> u32 {
    let all = names.len() >= SYMBOL_SLOTS && (1..=24).contains(&name.len());
    (0..32)
        .find(|&i| all && names[25 * i..][..25] == slot(name))
        .unwrap_or(32) as u32
}

/// Looks a name up, compares with the naive lookup, and returns the number. What is lent stays as it is.
#[track_caller]
fn lookup(names: &[u8], name: &[u8]) -> u32 {
    // Margins that would go on with a name or a slot.
    let mut lent_names = Guarded::new(names, b'x');
    let mut lent_name = Guarded::new(name, b'x');
    let number = raw::symbol(lent_names.area(), lent_name.area());
    let call = || format!("{} in {} bytes", name.escape_ascii(), names.len());
    assert_eq!(number, naive(names, name), "{}", call());
    lent_names.expect(names, "names", &call);
    lent_name.expect(name, "name", &call);
    number
}

/// Every name of a text, the names beside it, and the names of its verdicts.
#[test]
fn names_of_texts() {
    let mut random = Random::new(5_001);
    let mut found = 0;
    for round in 0..200 {
        let naming = Naming::ALL[round % Naming::ALL.len()];
        let set = Shape::ALL[round % Shape::ALL.len()].rule_set(&mut random);
        let text = texts::write(&mut random, &set, naming, Spacing::One).text;
        let reading = reader::read_rules(&text, IMAGE_AREA, NAME_AREA).unwrap();
        let mut slots = vec![0; NAME_AREA];
        assert_eq!(
            raw::read_rules(&text, &mut [0; IMAGE_AREA], &mut slots, &mut [0; 2]),
            0
        );
        for (number, name) in reading.symbols.iter().enumerate() {
            assert_eq!(lookup(&slots, name), number as u32);
            found += 1;
            lookup(&slots, &name[..name.len() - 1]);
            lookup(&slots, &[name, &b"a"[..]].concat());
            lookup(&slots, &[name, &b"\0"[..]].concat());
            let mut other = name.clone();
            let place = random.below(other.len());
            other[place] ^= 1 << random.below(8);
            lookup(&slots, &other);
        }
        for name in &reading.verdicts {
            let wanted = reading.symbols.iter().position(|symbol| symbol == name);
            assert_eq!(lookup(&slots, name), wanted.map_or(32, |i| i as u32));
        }
    }
    assert!(found > 1_000, "{found}");
}

/// A verdict is no symbol, also behind 32 symbols.
#[test]
fn verdicts_behind_32_symbols() {
    let names: Vec<String> = (0..32).map(|number| format!("s{number}")).collect();
    let text = format!("events {} . s0 -> #late .", names.join(" "));
    let mut slots = [0; NAME_AREA];
    raw::read_rules(
        text.as_bytes(),
        &mut [0; IMAGE_AREA],
        &mut slots,
        &mut [0; 2],
    );
    assert_eq!(lookup(&slots, b"s0"), 0);
    assert_eq!(lookup(&slots, b"s31"), 31);
    for name in ["fail", "succeed", "late", "s32"] {
        assert_eq!(lookup(&slots, name.as_bytes()), 32);
    }
}

/// Areas of every length around 32 slots, and names of every length around 24 bytes.
#[test]
fn lengths() {
    let long = [b'n'; 40];
    let mut slots = Vec::new();
    for length in 1..=32 {
        slots.extend(slot(&long[..length.min(24)]));
    }
    for area in (0..30).chain(SYMBOL_SLOTS - 30..=SYMBOL_SLOTS) {
        for length in [0, 1, 2, 23, 24, 25, 26, 40] {
            let number = lookup(&slots[..area], &long[..length]);
            let inside = area == SYMBOL_SLOTS && (1..=24).contains(&length);
            assert_eq!(number, if inside { length as u32 - 1 } else { 32 });
        }
    }
    slots.resize(2_000, b'n');
    assert_eq!(lookup(&slots, &long[..24]), 23);
    lookup(&slots, &[b'n'; 300]);
}

/// Slots that no reader writes: the first of equal ones, bytes behind the name, lengths that are not its.
#[test]
fn slots_of_any_bytes() {
    let mut random = Random::new(5_002);
    let (mut first, mut none) = (0, 0);
    for _ in 0..3_000 {
        let few = random.within(1, 4) as u8;
        let length = random.within(1, 24);
        let name: Vec<u8> = (0..length).map(|_| random.byte() % few).collect();
        let mut slots: Vec<u8> = (0..NAME_AREA).map(|_| random.byte() % few).collect();
        for _ in 0..random.below(4) {
            let place = random.below(32);
            slots[25 * place..][..25].copy_from_slice(&slot(&name));
            if random.once_in(3) {
                let damaged = 25 * place + random.below(25);
                slots[damaged] ^= 1;
            }
        }
        match lookup(&slots, &name) {
            32 => none += 1,
            _ => first += 1,
        }
    }
    assert!(first > 1_000 && none > 500, "{first} {none}");
}
