//! The wrapper's types: they give what the C functions give, in words of their own.

use reference::monitor::{self, Lent, Memory};
use reference::random::{sample, Habit, Random};
use reference::texts::{self, Naming, Spacing};
use watcher::{
    check_table, read_rules, Answer, Batch, Counts, Monitor, Names, Refusal, Rules, Run,
    TextRefusal, MAX_IMAGE_BYTES, MAX_TEXT_BYTES, NAMES_BYTES, ROOM,
};

fn counts([steps, rewrites, put_back]: [u64; 3]) -> Counts {
    Counts {
        steps,
        rewrites,
        put_back,
    }
}

/// Expects that a monitor holds what a memory describes.
#[track_caller]
fn expect_holds(monitor: &Monitor, memory: &Memory) {
    let [a, w, verdict, rule] = memory.head;
    assert_eq!(monitor.settled(), &memory.bytes[..a as usize]);
    assert_eq!(monitor.waiting(), &memory.bytes[ROOM - w as usize..]);
    let string = [monitor.settled(), monitor.waiting()].concat();
    assert_eq!(monitor.string(), string);
    match verdict {
        0 => assert_eq!((monitor.verdict(), monitor.rule()), (None, None)),
        _ => {
            assert_eq!(monitor.verdict().map(u64::from), Some(verdict - 1));
            assert_eq!(monitor.rule().map(u64::from), Some(rule));
        }
    }
}

#[test]
fn rules_hold_image_and_table() {
    let mut random = Random::new(1_101);
    for habit in Habit::ALL.repeat(4) {
        let set = habit.either(&mut random);
        let image = reference::encode(&set);
        let rules = Rules::new(&image).unwrap();
        assert_eq!(rules.image(), image);
        assert_eq!(rules.table(), reference::table(&set));
        assert_eq!(check_table(rules.image(), rules.table()), Ok(()));
        assert_eq!(rules, Rules::new(&image).unwrap());
        assert_eq!(rules.names(), &Names::default());
        assert_eq!(Rules::new(&image[1..]), Err(Refusal::BAD_IMAGE));
    }
}

#[test]
fn rules_of_a_text() {
    let mut random = Random::new(1_103);
    for round in 0..300 {
        let set = Habit::ALL[round % Habit::ALL.len()].either(&mut random);
        let naming = Naming::ALL[random.below(Naming::ALL.len())];
        let texts::Written { text, reading } =
            texts::write(&mut random, &set, naming, Spacing::Few);
        let rules = Rules::read(&text).unwrap();
        assert_eq!(rules.image(), reading.image());
        assert_eq!(rules.table(), reference::table(&reading.set));
        assert_eq!(rules.names().slots()[..], reading.slots());
        assert_ne!(rules, Rules::new(&reading.image()).unwrap());

        let names = rules.names();
        for number in 0..=255 {
            let place = usize::from(number);
            let symbol = reading.symbols.get(place);
            let verdict = reading.verdicts.get(place);
            assert_eq!(
                names.name_of_symbol(number).map(str::as_bytes),
                symbol.map(Vec::as_slice)
            );
            assert_eq!(
                names.name_of_verdict(number).map(str::as_bytes),
                verdict.map(Vec::as_slice)
            );
            if let Some(name) = symbol {
                assert_eq!(names.symbol(name), Some(number));
                assert_eq!(names.symbol([name, &b"!"[..]].concat()), None);
            }
        }
        assert_eq!(names.symbol(""), None);
        assert_eq!(names.symbol([0; 24]), None);
    }
}

/// A verdict is no symbol, even where 32 symbols stand before it.
#[test]
fn names_of_a_full_text() {
    let symbols: Vec<String> = (0..32).map(|number| format!("s{number}")).collect();
    let text = format!("events {} .", symbols.join(" "));
    let rules = Rules::read(&text).unwrap();
    let names = rules.names();
    assert_eq!(names.symbol("s31"), Some(31));
    assert_eq!(names.symbol("fail"), None);
    assert_eq!(names.name_of_symbol(31), Some("s31"));
    assert_eq!(names.name_of_symbol(32), None);
    assert_eq!(names.name_of_verdict(1), Some("succeed"));
    assert_eq!(names.name_of_verdict(2), None);
    assert_eq!(names.name_of_verdict(16), None);
    let shown = format!("{names:?}");
    assert!(shown.contains("\"s31\"], verdicts: [\"fail\", \"succeed\"]"));
}

/// Slots that the reader does not write have no names.
#[test]
fn slots_that_are_not_the_readers() {
    let mut slots = [0; NAMES_BYTES];
    slots[..3].copy_from_slice(&[2, b'a', b'b']);
    slots[25..28].copy_from_slice(&[25, b'a', b'b']);
    slots[50..53].copy_from_slice(&[2, 0xff, b'b']);
    slots[75..100].copy_from_slice(&[24; 25]);
    let names = Names::new(slots);
    assert_eq!(names.slots(), &slots);
    assert_eq!(names.name_of_symbol(0), Some("ab"));
    assert_eq!(names.name_of_symbol(1), None);
    assert_eq!(names.name_of_symbol(2), None);
    assert_eq!(names.name_of_symbol(3).map(str::len), Some(24));
    assert_eq!(names.symbol("ab"), Some(0));
    assert_eq!(Names::default().name_of_symbol(0), None);
    assert_eq!(Names::default().name_of_verdict(0), None);
}

/// Refusals of a text have their place, and a message that names it where there is one.
#[test]
fn refused_texts() {
    let refused = |refusal, place| TextRefusal { refusal, place };
    let (image, names) = (MAX_IMAGE_BYTES, NAMES_BYTES);
    for (text, areas, wanted, message) in [
        (
            " ".repeat(MAX_TEXT_BYTES + 1),
            [image, names],
            refused(Refusal::LONG_TEXT, 0),
            "refused 1: the rule text is longer than 16384 bytes",
        ),
        (
            "events a .".into(),
            [image, names - 1],
            refused(Refusal::SHORT_TEXT_AREA, 0),
            "refused 2: the image area or the name area is too short",
        ),
        (
            "events a.".into(),
            [image, names],
            refused(Refusal::NO_TOKEN, 7),
            "refused 3: not a token, at byte 7",
        ),
        (
            "events a ".into(),
            [image, names],
            refused(Refusal::MISPLACED, 9),
            "refused 4: the token is not allowed here, or the text ended, at byte 9",
        ),
        (
            "events a . a a a a a a a a a".into(),
            [image, names],
            refused(Refusal::TOO_MANY, 27),
            "refused 5: too many names in a side, symbols, rules or verdicts, at byte 27",
        ),
        (
            "events a a".into(),
            [image, names],
            refused(Refusal::EVENT_TWICE, 9),
            "refused 6: an event is named twice, at byte 9",
        ),
    ] {
        let (mut image_area, mut name_area) = (vec![7; areas[0]], vec![7; areas[1]]);
        let found = read_rules(text.as_bytes(), &mut image_area, &mut name_area);
        assert_eq!(found, Err(wanted));
        assert_eq!(wanted.to_string(), message);
        assert!(image_area.iter().chain(&name_area).all(|&byte| byte == 7));
        if areas == [image, names] {
            assert_eq!(Rules::read(&text), Err(wanted));
        }
    }
}

/// Calls of every kind give what the reference gives.
#[test]
fn calls_give_what_the_reference_gives() {
    let mut random = Random::new(1_102);
    let (mut accepted, mut refused) = (0, 0);
    for round in 0..300 {
        let set = Habit::ALL[round % Habit::ALL.len()].either(&mut random);
        let lent = Lent::of(&set);
        let rules = Rules::new(&lent.image).unwrap();
        let mut monitor = Monitor::new();
        let mut memory = Memory::empty();
        for _ in 0..10 {
            let event = random.below(usize::from(set.events) + 1) as u8;
            let fuel = [0, 1, 5, 20, 65_536][random.below(5)];
            let (found, wanted) = match random.below(3) {
                0 => (
                    monitor.offer(&rules, event, fuel),
                    monitor::offer(&lent, &memory, event, fuel),
                ),
                1 => (
                    monitor.go_on(&rules, fuel),
                    monitor::go_on(&lent, &memory, fuel),
                ),
                _ => {
                    memory = compare_batch(&mut random, &rules, &lent, &mut monitor, &memory);
                    continue;
                }
            };
            match found {
                Ok(Run {
                    answer,
                    counts: did,
                }) => {
                    let [number, steps, rewrites, put_back] = wanted.out;
                    assert_eq!((wanted.refusal, u64::from(answer.byte())), (0, number));
                    assert_eq!(did, counts([steps, rewrites, put_back]));
                    accepted += 1;
                }
                Err(refusal) => {
                    assert_eq!(refusal.number(), wanted.refusal);
                    refused += 1;
                }
            }
            memory = wanted.memory;
            expect_holds(&monitor, &memory);
        }
        monitor.reset();
        assert_eq!(monitor, Monitor::new());
    }
    assert!(accepted > 800, "{accepted} accepted");
    assert!(refused > 400, "{refused} refused");
}

/// Compares a batch, and returns what the monitor holds afterwards.
fn compare_batch(
    random: &mut Random,
    rules: &Rules,
    lent: &Lent,
    monitor: &mut Monitor,
    memory: &Memory,
) -> Memory {
    let count = random.within(0, 4);
    let events = random.string(count, lent.set().events);
    let mut answers = vec![0xcc; random.within(count.saturating_sub(1), count + 2)];
    let wanted = monitor::batch(lent, memory, &events, 9, &answers);
    match monitor.batch(rules, &events, 9, &mut answers) {
        Ok(Batch {
            stop,
            accepted,
            counts: did,
        }) => {
            let [number, count, steps, rewrites, put_back] = wanted.out;
            assert_eq!(wanted.refusal, 0);
            assert_eq!(stop.map_or(0, Refusal::number), number as u32);
            assert_eq!(accepted as u64, count);
            assert_eq!(did, counts([steps, rewrites, put_back]));
        }
        Err(refusal) => assert_eq!(refusal.number(), wanted.refusal),
    }
    assert_eq!(answers, wanted.answers);
    expect_holds(monitor, &wanted.memory);
    wanted.memory
}

/// A monitor that followed other rules is refused, and is as it was.
#[test]
fn a_monitor_with_other_rules() {
    let rules = Rules::new(&reference::encode(&sample())).unwrap();
    let one_symbol = Rules::new(&[1, 0, 2, 1]).unwrap();
    let mut monitor = Monitor::new();
    monitor.offer(&rules, 2, 1_000).unwrap();
    let before = monitor.clone();
    assert_eq!(
        monitor.offer(&one_symbol, 0, 9),
        Err(Refusal::NOT_DESCRIBED)
    );
    assert_eq!(monitor.go_on(&one_symbol, 9), Err(Refusal::NOT_DESCRIBED));
    assert_eq!(
        monitor.batch(&one_symbol, &[0], 9, &mut [0]),
        Err(Refusal::NOT_DESCRIBED)
    );
    assert_eq!(monitor, before);
    assert_eq!(monitor.go_on(&rules, 0).unwrap().answer, Answer::Quiet);
}

#[test]
fn answers_and_bytes() {
    let mut known = 0;
    for byte in 0..=255 {
        if let Some(answer) = Answer::from_byte(byte) {
            assert_eq!(answer.byte(), byte);
            known += 1;
        }
    }
    assert_eq!(known, 3 + 16);
    assert_eq!(Answer::from_byte(15), None);
    assert_eq!(Answer::from_byte(32), None);
    assert_eq!(Answer::Verdict(15).byte(), 31);
}

#[test]
#[should_panic(expected = "no verdict 16")]
fn no_byte_for_a_verdict_above_15() {
    Answer::Verdict(16).byte();
}

/// Every refusal has its number and a message of its own.
#[test]
fn refusals_and_messages() {
    let all = [
        (Refusal::LONG_TEXT, 1),
        (Refusal::SHORT_TEXT_AREA, 2),
        (Refusal::NO_TOKEN, 3),
        (Refusal::MISPLACED, 4),
        (Refusal::TOO_MANY, 5),
        (Refusal::EVENT_TWICE, 6),
        (Refusal::BAD_IMAGE, 7),
        (Refusal::SHORT_AREA, 8),
        (Refusal::OTHER_TABLE, 9),
        (Refusal::OTHER_LENGTH, 10),
        (Refusal::NOT_DESCRIBED, 11),
        (Refusal::NO_EVENT, 12),
        (Refusal::TOO_MUCH_FUEL, 13),
        (Refusal::VERDICT_STANDS, 14),
        (Refusal::NO_ROOM, 15),
        (Refusal::BATCH_LENGTH, 16),
    ];
    let mut messages = Vec::new();
    for (refusal, number) in all {
        assert_eq!(refusal.number(), number);
        let message = refusal.to_string();
        let (start, reason) = message.split_once(": ").unwrap();
        assert_eq!(start, format!("refused {number}"));
        assert!(!messages.contains(&reason.to_string()));
        messages.push(reason.to_string());
    }
}
