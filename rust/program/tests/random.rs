//! Inputs drawn from fixed seeds, each compared with the reference in every byte: rule sets of all shapes and
//! habits with lists of names, the same with damage, lengths around the limits, lists of tokens, and
//! bytes of any kind. Each test also expects that what it draws leads to the lines it is meant for.

mod common;

use common::{expect_same, sample};
use reference::random::{full, largest, largest_with_marks, overlapping, Habit, Random, Shape};
use reference::reader::{Name, Reading};
use reference::texts::{write, Naming, Spacing};
use reference::RuleSet;
use std::collections::BTreeSet;

/// The kinds of lines seen.
#[derive(Default)]
struct Seen(BTreeSet<String>);

impl Seen {
    /// Runs the program on an input, and compares what it writes with the reference.
    #[track_caller]
    fn compare(&mut self, input: &[u8]) {
        let expected = reference::watch::watch(input);
        expect_same(input, &program::watch(input), &expected);
        if expected.is_empty() {
            self.0.insert("nothing".to_string());
        }
        for line in expected.split(|&byte| byte == b'\n') {
            let words: Vec<&[u8]> = line.split(|&byte| byte == b' ').collect();
            self.0.insert(match words[..] {
                [b"input", b"too", b"long"] => "long".to_string(),
                [b"rules", b"refused", number, _] | [_, b"refused", number] => {
                    String::from_utf8_lossy(number).into_owned()
                }
                [_, [b'#', ..], ..] => "verdict".to_string(),
                [_, word, ..] => String::from_utf8_lossy(word).into_owned(),
                _ => continue,
            });
        }
    }

    /// Expects that all these kinds of lines were seen.
    #[track_caller]
    fn expect(&self, kinds: &str) {
        for kind in kinds.split(' ') {
            assert!(self.0.contains(kind), "{kind} is not among {:?}", self.0);
        }
    }
}

/// One of a few.
fn one<'a, T: ?Sized>(random: &mut Random, of: &[&'a T]) -> &'a T {
    of[random.below(of.len())]
}

/// A rule set of any kind.
fn rule_set(random: &mut Random) -> RuleSet {
    match random.below(10) {
        0..=3 => Shape::ALL[random.below(Shape::ALL.len())].either(random),
        _ => Habit::ALL[random.below(Habit::ALL.len())].either(random),
    }
}

/// A run of bytes that are no separators.
fn run(random: &mut Random, length: usize) -> Name {
    let mut run = Vec::new();
    while run.len() < length {
        let byte = match random.below(4) {
            0 => random.byte(),
            1 => b"\0%#.-,>_^\x80\xff"[random.below(11)],
            _ => b'a' + random.below(26) as u8,
        };
        if !b" \t\r\n".contains(&byte) {
            run.push(byte);
        }
    }
    run
}

/// A name to offer: mostly an event.
fn name(random: &mut Random, reading: &Reading) -> Name {
    let event = random.below(reading.set.events.into());
    let symbol = random.below(reading.symbols.len());
    let verdict = random.below(reading.verdicts.len());
    let event = &reading.symbols[event];
    let symbol = &reading.symbols[symbol];
    let verdict = &reading.verdicts[verdict];
    match random.below(40) {
        0..=2 => symbol.clone(),
        3 => verdict.clone(),
        4 => [b"#", &verdict[..]].concat(),
        5 => {
            let odd = ["#epsilon", "->", ".", "%", "events", "-", ",", "^", "^^"];
            one(random, &odd).into()
        }
        6 => {
            let length = random.within(1, 30);
            run(random, length)
        }
        7 if random.once_in(4) => {
            let length = random.within(25, 600);
            run(random, length)
        }
        // A known name with a byte more, a byte less, or another byte.
        8 => {
            let more = run(random, 1);
            [&symbol[..], &more].concat()
        }
        9 => {
            let more = run(random, 1);
            [&more, &symbol[..]].concat()
        }
        10 if symbol.len() > 1 => symbol[..symbol.len() - 1].to_vec(),
        11 => {
            let mut other = symbol.clone();
            let place = random.below(other.len());
            other[place] ^= 1 << random.below(8);
            // It may be a separator now, and then it is two names or none.
            other
        }
        _ => event.clone(),
    }
}

/// A list of names to offer.
fn names(random: &mut Random, reading: &Reading, most: usize) -> Vec<Name> {
    let count = random.within(0, most);
    let mut names = Vec::new();
    while names.len() < count {
        let next = name(random, reading);
        let times = if random.once_in(6) {
            random.within(2, 9)
        } else {
            1
        };
        names.extend(vec![next; times]);
    }
    names
}

fn naming(random: &mut Random) -> Naming {
    Naming::ALL[random.below(Naming::ALL.len())]
}

fn spacing(random: &mut Random) -> Spacing {
    Spacing::ALL[random.below(Spacing::ALL.len())]
}

/// Rules as a text, a `%`, and up to `most` names.
fn input(random: &mut Random, set: &RuleSet, most: usize) -> Vec<u8> {
    let (naming, spacing) = (naming(random), spacing(random));
    let written = write(random, set, naming, spacing);
    let names = names(random, &written.reading, most);
    [written.text, spacing.join(random, &names)].join(&b'%')
}

#[test]
fn rule_sets_and_names() {
    let mut random = Random::new(101);
    let mut seen = Seen::default();
    for _ in 0..2_000 {
        let set = rule_set(&mut random);
        seen.compare(&input(&mut random, &set, 40));
    }
    seen.expect("nothing quiet spent full verdict 12 14 15");
}

/// Rule sets that grow, loop and chain, mostly without verdicts, and many names.
#[test]
fn long_runs() {
    let mut random = Random::new(102);
    let mut seen = Seen::default();
    for _ in 0..150 {
        let habit = [Habit::Grow, Habit::Loop, Habit::Chain, Habit::Mixed][random.below(4)];
        let mut set = habit.either(&mut random);
        // Verdicts would end most of these runs soon.
        if !random.once_in(4) {
            set.rules
                .retain(|rule| matches!(rule.right, reference::Right::Symbols(_)));
        }
        seen.compare(&input(&mut random, &set, 300));
    }
    seen.expect("quiet spent full verdict 12 14 15");
}

/// Texts with 64 rules of eight symbols. Those with long names are too long.
#[test]
fn the_most_rules() {
    let mut random = Random::new(103);
    let mut seen = Seen::default();
    for round in 0..75 {
        let set = match round % 5 {
            0 => largest(),
            1 => overlapping(random.within(2, 32) as u8),
            2 => largest_with_marks(),
            _ => {
                let symbols = random.within(1, 32) as u8;
                let used = random.within(1, symbols.min(3).into()) as u8;
                full(&mut random, symbols, used)
            }
        };
        let naming = [Naming::Short, Naming::Any, Naming::Longest][random.below(3)];
        let written = write(&mut random, &set, naming, Spacing::One);
        let names = names(&mut random, &written.reading, 200);
        let names = Spacing::Space.join(&mut random, &names);
        seen.compare(&[written.text, names].join(&b'%'));
    }
    seen.expect("1 long quiet verdict 12 14");
}

/// Damages the bytes somewhere.
fn damage(random: &mut Random, bytes: &mut Vec<u8>) {
    let place = random.within(0, bytes.len());
    let byte = match random.below(3) {
        0 => random.byte(),
        _ => b" \t\r\n%#.->^aZ0_\0\x80"[random.below(16)],
    };
    match random.below(8) {
        0 => bytes.truncate(place),
        1 => bytes.insert(place, b'%'),
        2 => bytes.insert(place, byte),
        3 if !bytes.is_empty() => {
            let (one, other) = (random.below(bytes.len()), random.below(bytes.len()));
            bytes.swap(one, other);
        }
        4 => {
            // A piece is left out.
            let end = bytes.len().min(place + random.within(1, 12));
            bytes.drain(place..end);
        }
        5 => {
            // A piece stands twice.
            let end = bytes.len().min(place + random.within(1, 12));
            let piece = bytes[place..end].to_vec();
            bytes.splice(place..place, piece);
        }
        _ if place < bytes.len() => bytes[place] = byte,
        _ => bytes.push(byte),
    }
}

#[test]
fn damaged() {
    let mut random = Random::new(104);
    let mut seen = Seen::default();
    for _ in 0..1_500 {
        let set = rule_set(&mut random);
        let mut input = input(&mut random, &set, 20);
        for _ in 0..random.within(1, 3) {
            damage(&mut random, &mut input);
        }
        seen.compare(&input);
    }
    seen.expect("nothing quiet spent full verdict 3 4 5 6 12 14 15");
}

/// Rule parts and inputs within a few bytes of their limits, with separators or names for what lacks.
#[test]
fn around_the_limits() {
    let mut random = Random::new(105);
    let mut seen = Seen::default();
    for round in 0..300 {
        let set = rule_set(&mut random);
        let mut input = input(&mut random, &set, 30);
        let limit = [16_384, 20_480][round % 2];
        let length = random.within(limit - 3, limit + 3);
        let lacks = length.saturating_sub(match limit {
            20_480 => input.len(),
            _ => input.iter().position(|&byte| byte == b'%').expect("a `%`"),
        });
        let filling = match random.below(3) {
            0 => vec![b' '; lacks],
            1 => run(&mut random, lacks),
            _ => (0..lacks).map(|_| b" \t\r\n"[random.below(4)]).collect(),
        };
        match (limit, random.below(4)) {
            (_, 0) => drop(input.splice(..0, filling)),
            (20_480, _) => input.extend(filling),
            _ => {
                let cut = input.iter().position(|&byte| byte == b'%').expect("a `%`");
                input.splice(cut..cut, filling);
            }
        }
        seen.compare(&input);
    }
    seen.expect("long 1 3 quiet spent verdict 12 14");
}

/// Lists of tokens, mostly behind good events.
#[test]
fn tokens() {
    let mut random = Random::new(106);
    let mut seen = Seen::default();
    let tokens = [
        "a", "b", "c", "a", "b", "->", "->", ".", ".", "#fail", "#x", "#epsilon", "%", "events",
        "A.", "^", "^",
    ];
    for _ in 0..900 {
        let count = random.within(0, 12);
        let mut list: Vec<&str> = Vec::new();
        match random.below(10) {
            0 => {}
            1 => list.extend(["events", "a", "b"]),
            _ => list.extend(["events", "a", "b", "."]),
        }
        // Rules that are good but for what the list draws.
        for _ in 0..random.below(3) {
            let rule = [
                "a -> b .",
                "a b -> #x .",
                "b b -> a c .",
                "c -> #epsilon .",
                "b -> b b .",
                "^ a -> #y .",
                "^ b b -> b .",
                "^ b -> #epsilon .",
            ];
            list.push(one(&mut random, &rule));
        }
        if random.once_in(2) {
            list.push("%");
        }
        for _ in 0..count {
            list.push(one(&mut random, &tokens));
        }
        let spacing = spacing(&mut random);
        seen.compare(&spacing.join(&mut random, &list));
    }
    seen.expect("nothing quiet spent verdict full 3 4 6 12 14 15");
}

/// The sample with `^ take` for `take`, with a `^` at every place, joined to a token or apart.
#[test]
fn a_mark_at_every_place() {
    let input =
        "events lock take free . lock take -> held . held free -> #epsilon . ^ take -> #fail . \
                 % take lock take free free take"
            .as_bytes();
    let mut seen = Seen::default();
    for place in 0..=input.len() {
        for more in ["^", " ^ "] {
            let (before, after) = input.split_at(place);
            seen.compare(&[before, more.as_bytes(), after].concat());
        }
    }
    seen.expect("quiet verdict 3 4 12 14");
}

/// Bytes of any kind, and of few kinds.
#[test]
fn any_bytes() {
    let mut random = Random::new(107);
    let mut seen = Seen::default();
    for round in 0..700 {
        let length = match random.below(20) {
            0 => random.within(0, 24_000),
            1..=4 => random.within(0, 1_000),
            _ => random.within(0, 60),
        };
        let kinds: &[u8] = match round % 4 {
            0 => &[],
            1 => b"a%",
            2 => b" .a",
            _ => b"events a .->%#^\n",
        };
        let mut input = match random.below(3) {
            0 => b"events a .".to_vec(),
            1 => b"events a .%".to_vec(),
            _ => Vec::new(),
        };
        for _ in 0..length {
            input.push(match kinds.len() {
                0 => random.byte(),
                count => kinds[random.below(count)],
            });
        }
        seen.compare(&input);
    }
    seen.expect("nothing long 3 4 quiet 12");
}

/// No byte, each single byte, and each behind the shortest rules.
#[test]
fn every_byte() {
    let mut seen = Seen::default();
    seen.compare(b"");
    for byte in 0..=255 {
        seen.compare(&[byte]);
        seen.compare(&[b"events a .%", &[byte][..]].concat());
    }
    seen.expect("nothing quiet 3 4 12");
}

/// The sample cut at every byte, with a `%` at every place, and without each byte.
#[test]
fn the_sample_damaged_everywhere() {
    let sample = sample().into_bytes();
    let mut seen = Seen::default();
    for place in 0..=sample.len() {
        seen.compare(&sample[..place]);
        seen.compare(&sample[place..]);
        seen.compare(&[&sample[..place], &sample[place..]].join(&b'%'));
        if place < sample.len() {
            seen.compare(&[&sample[..place], &sample[place + 1..]].concat());
        }
    }
    seen.expect("nothing quiet verdict 3 4 6 12 14");
}
