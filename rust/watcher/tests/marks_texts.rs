//! Rule texts with start marks: images written by hand, a `^` at every place of good texts, joined to every
//! token, and at places drawn at random.

mod common;

use common::texts::{expect_refused, read, read_into_all, Tally};
use reference::random::{largest_with_marks, Habit, Random, Shape};
use reference::reader::{runs, Reading};
use reference::texts::{self, Naming, Spacing};

/// The sample with `^ take` for `take`.
const SAMPLE: &str =
    "events lock take free . lock take -> held . held free -> #epsilon . ^ take -> #fail .";

/// Good texts.
const GOOD: [&str; 6] = [
    SAMPLE,
    "events lock take free . lock take -> held . held free -> #epsilon . ^ take -> #fail . \
     held take -> #fail .",
    "events a .",
    "events a b . ^ a -> #epsilon . ^ b a -> a b . a b -> #late .",
    "events events . ^ events -> events . events events -> #events .",
    "events a . a a a a a a a a -> a a a a a a a a . ^ a a a a a a a a -> a . ^ a -> #x .",
];

/// Expects that a text is read, and returns what it says.
#[track_caller]
fn good(text: impl AsRef<[u8]>) -> Reading {
    let text = text.as_ref();
    read(text).unwrap_or_else(|refused| panic!("{refused:?}: {}", text.escape_ascii()))
}

#[test]
fn images() {
    assert_eq!(
        read_into_all(SAMPLE.as_bytes()).unwrap().image(),
        [
            4, 3, 2, 3, //
            2, 0, 1, 0, //
            2, 0, 0, 0, //
            1, 1, 0, 1, // marked
            0, 1, 3, //
            3, 2, //
            1,
        ]
    );
    let reading = good(GOOD[1]);
    assert_eq!(reading.image().len(), 28);
    assert_eq!(
        reading.image()[4..20],
        [2, 0, 1, 0, 2, 0, 0, 0, 1, 1, 0, 1, 2, 1, 0, 0]
    );
    // The mark has no byte in a body and does not count in the length.
    assert_eq!(
        good("events a . ^ a -> a . ^ a -> #epsilon . a -> #x . ^ a b -> #x . ^ b -> a a .")
            .image(),
        [
            2, 5, 3, 1, //
            1, 0, 1, 1, //
            1, 0, 0, 1, //
            1, 1, 2, 0, //
            2, 1, 2, 1, //
            1, 0, 2, 1, //
            0, 0, //
            0, //
            0, //
            0, 1, //
            1, 0, 0,
        ]
    );
    let eight = "a a a a a a a a";
    let longest = format!(
        "events a .{}",
        format!(" ^ {eight} -> {eight} .").repeat(64)
    );
    let image = read_into_all(longest.as_bytes()).unwrap().image();
    assert_eq!(image.len(), 1_284);
    assert_eq!(image[4..260], [8, 0, 8, 1].repeat(64));
}

/// Each separator before and behind a `^`, one or many.
#[test]
fn separators() {
    let wanted = good("events a . ^ a -> a .").image();
    for separators in [" ", "\t", "\r", "\n", "\r\n", "  ", "\t \r\n\n "] {
        for text in [
            format!("events a .{separators}^ a -> a ."),
            format!("events a . ^{separators}a -> a ."),
            format!("events a .{separators}^{separators}a -> a ."),
        ] {
            assert_eq!(good(text).image(), wanted);
        }
    }
    // Others separate nothing.
    for other in ["\u{b}", "\u{c}", "\0", "\u{a0}", "%", ","] {
        expect_refused(format!("events a . ^{other}a -> a ."), 3, 11);
        expect_refused(format!("events a . ^{other} a -> a ."), 3, 11);
        expect_refused(format!("events a . {other}^ a -> a ."), 3, 11);
    }
}

/// Texts with refusals and places counted by hand.
#[test]
fn refusals() {
    for (text, refusal, place) in [
        // One run with a name is no token.
        ("events take . ^take -> #fail .", 3, 14),
        ("events take . ^ ^take -> #fail .", 3, 16),
        ("events take . take^ -> #fail .", 3, 14),
        ("events take . ^^ take -> #fail .", 3, 14),
        ("^events take .", 3, 0),
        ("events take .^ take -> #fail .", 3, 12),
        // The second token behind `.`.
        ("events a . ^ -> a .", 4, 13),
        ("events a . ^ . a", 4, 13),
        ("events a . ^ #x -> a .", 4, 13),
        ("events a . ^ #epsilon .", 4, 13),
        ("events a . ^ ^ a -> a .", 4, 13),
        ("events a . ^ ^ ^", 4, 13),
        ("events a . ^ a . ", 4, 15),
        ("events a . ^ a ^ -> a .", 4, 15),
        // Eight names and a ninth.
        ("events a . ^ a a a a a a a a a -> a .", 5, 29),
        ("events a . ^ a a a a a a a a ^ -> a .", 4, 29),
        ("events a . a a a a a a a a ^ -> a .", 4, 27),
        ("events a . a -> a a a a a a a a ^ .", 4, 32),
        // The text ends behind it.
        ("events a . ^", 4, 12),
        ("events a . ^ \r\n", 4, 15),
        ("events a . a -> a . ^", 4, 21),
        ("^", 4, 0),
        (" ^", 4, 1),
        ("events ^", 4, 7),
    ] {
        expect_refused(text, refusal, place);
    }
    for count in 1..=8 {
        let names = vec!["a"; count].join(" ");
        let rule = &good(format!("events a . ^ {names} -> a .")).set.rules[0];
        assert_eq!((rule.marked, rule.left.len()), (true, count));
    }
    // Rule 65.
    let rules = "events a .\n".to_string() + &"^ a -> a .\n".repeat(64);
    assert_eq!(good(&rules).set.rules.len(), 64);
    let end = rules.len();
    expect_refused(format!("{rules}^ a -> a ."), 5, end + 2);
    expect_refused(format!("{rules}^  new"), 5, end + 3);
    expect_refused(format!("{rules}^ -> a ."), 4, end + 2);
    expect_refused(format!("{rules}^ #x"), 4, end + 2);
    expect_refused(format!("{rules}^ ."), 4, end + 2);
    expect_refused(format!("{rules}^ ^"), 4, end + 2);
    expect_refused(format!("{rules}^"), 4, end + 1);
    expect_refused(format!("{rules}^\n\n"), 4, end + 3);
    expect_refused(format!("{rules}^a"), 3, end);
    expect_refused(format!("{rules}a -> a ."), 5, end);
    // The name behind a `^` may be a symbol too many, also where it would begin rule 65.
    let names: Vec<String> = (0..32).map(|number| format!("n{number}")).collect();
    let events = format!("events {} . ", names.join(" "));
    expect_refused(format!("{events}^ x -> n0 ."), 5, events.len() + 2);
    assert!(good(format!("{events}^ n31 -> n0 .")).set.rules[0].marked);
}

/// A text's tokens, with the place of each and whether a rule begins there.
fn tokens(text: &[u8]) -> Vec<(usize, &[u8], bool)> {
    let runs = runs(text);
    (0..runs.len())
        .map(|token| {
            let behind_stop = token > 0 && runs[token - 1].1 == b".";
            (runs[token].0, runs[token].1, behind_stop)
        })
        .collect()
}

/// A `^` before each token of a good text and at its end. Where a rule without one begins it marks that rule;
/// before another `^` that one is misplaced; everywhere else it is misplaced itself.
#[test]
fn a_mark_at_every_place() {
    let mut random = Random::new(1_401);
    let mut all: Vec<Vec<u8>> = GOOD.map(|text| text.as_bytes().to_vec()).to_vec();
    for round in 0..60 {
        let set = Habit::ALL[round % Habit::ALL.len()].either(&mut random);
        all.push(texts::write(&mut random, &set, Naming::Any, Spacing::Few).text);
    }
    let (mut marks, mut seconds, mut misplaced) = (0, 0, 0);
    for text in all {
        let wanted = good(&text);
        let mut rules = 0;
        for (place, token, begins) in tokens(&text) {
            let (before, after) = text.split_at(place);
            let more = [before, b"^ ", after].concat();
            if begins && token == b"^" {
                expect_refused(&more, 4, place + 2);
                seconds += 1;
            } else if begins {
                let mut set = wanted.set.clone();
                set.rules[rules].marked = true;
                let reading = good(&more);
                assert_eq!(reading.set, set);
                let names = (&reading.symbols, &reading.verdicts);
                assert_eq!(names, (&wanted.symbols, &wanted.verdicts));
                marks += 1;
            } else {
                expect_refused(&more, 4, place);
                misplaced += 1;
            }
            rules += usize::from(begins);
        }
        let more = [&text[..], b" ^"].concat();
        expect_refused(&more, 4, more.len());
        assert_eq!(rules, wanted.set.rules.len());
    }
    assert!(marks > 150, "{marks} marks");
    assert!(seconds > 100, "{seconds} second marks");
    assert!(misplaced > 2_000, "{misplaced} misplaced");
}

/// A `^` joined to each token, before it and behind it: the run is no token.
#[test]
fn a_mark_joined_to_every_token() {
    for text in GOOD {
        for (place, token, _) in tokens(text.as_bytes()) {
            let (before, after) = text.split_at(place);
            expect_refused(format!("{before}^{after}"), 3, place);
            let (before, after) = text.split_at(place + token.len());
            expect_refused(format!("{before}^{after}"), 3, place);
        }
    }
}

/// The same text with and without its marks: only the fourth bytes differ.
#[test]
fn texts_without_their_marks() {
    let mut random = Random::new(1_402);
    let mut marked = 0;
    for round in 0..1_000 {
        let set = match round % 2 {
            0 => Shape::ALL[random.below(Shape::ALL.len())].with_marks(&mut random),
            _ => Habit::ALL[random.below(Habit::ALL.len())].with_marks(&mut random),
        };
        let written = texts::write(&mut random, &set, Naming::Short, Spacing::Few);
        let with = read(&written.text).unwrap();
        assert_eq!(with, written.reading);
        // Only a mark has this byte.
        let text: Vec<u8> = written
            .text
            .iter()
            .map(|&byte| if byte == b'^' { b' ' } else { byte })
            .collect();
        let without = read(&text).unwrap();
        assert_eq!(without.slots(), with.slots());
        let (mut image, rules) = (with.image(), with.set.rules.len());
        for rule in 0..rules {
            marked += usize::from(image[4 + 4 * rule + 3]);
            assert_eq!(image[4 + 4 * rule + 3], with.set.rules[rule].marked.into());
            image[4 + 4 * rule + 3] = 0;
        }
        assert_eq!(without.image(), image);
    }
    assert!(marked > 3_000, "{marked} marked");
}

/// Good lists of tokens with `^` more, in good and in bad places.
#[test]
fn marks_at_random_places() {
    let mut random = Random::new(1_403);
    let mut tally = Tally::default();
    for round in 0..20_000 {
        let set = Habit::ALL[round % Habit::ALL.len()].either(&mut random);
        let symbols = Naming::Short.names(&mut random, set.symbols.into(), &[]);
        let mut verdicts = vec![b"fail".to_vec(), b"succeed".to_vec()];
        verdicts.extend((2..set.verdicts).map(|number| vec![b'v', b'a' + number]));
        let tokens = texts::tokens(&set, &symbols, &verdicts);
        let tokens = texts::with_more_marks(&mut random, &tokens);
        tally.add(&read(&Spacing::One.join(&mut random, &tokens)));
    }
    tally.expect(2_000, [0, 10_000, 0, 0]);
}

/// The text of the rule set with the largest table: read, compiled, and its rules are the same.
#[test]
fn the_text_of_the_largest_table() {
    let set = largest_with_marks();
    let names: Vec<Vec<u8>> = (0..32)
        .map(|number| vec![b'a' + number % 26, b'a' + number / 26])
        .collect();
    let mut random = Random::new(1_404);
    let tokens = texts::tokens(&set, &names, &[]);
    let text = Spacing::Space.join(&mut random, &tokens);
    let rules = watcher::Rules::read(&text).unwrap();
    assert_eq!(rules.image()[..2], reference::encode(&set)[..2]);
    assert_eq!(rules.image()[4..], reference::encode(&set)[4..]);
    assert_eq!(rules.table(), reference::table(&set));
    assert_eq!(rules.table().len(), watcher::MAX_TABLE_WORDS);
}
