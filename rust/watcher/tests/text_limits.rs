//! Rule texts at each limit, from both sides.

mod common;

use common::texts::{expect, expect_refused, read, read_into, read_into_all};
use reference::reader::{Reading, Refused, IMAGE_AREA, NAME_AREA};
use reference::Right;

/// The longest text that is read.
const LONGEST: usize = 16_384;

/// The tokens with a space between, and the place of one of them.
fn text_and_place(tokens: &[String], token: usize) -> (String, usize) {
    let place = tokens[..token].iter().map(|before| before.len() + 1).sum();
    (tokens.join(" "), place)
}

fn tokens(text: &str) -> Vec<String> {
    text.split_whitespace().map(String::from).collect()
}

/// Different names of two bytes.
fn name(number: usize) -> String {
    let letter = |number: usize| char::from(b"ABCDEFGHabcdefgh"[number % 16]);
    format!("{}{}", letter(number / 16), letter(number))
}

#[test]
fn names_of_every_length() {
    let lengths = (1..=60).chain([
        63, 64, 65, 127, 128, 129, 200, 255, 256, 257, 258, 264, 279, 280, 281, 282, 300, 511, 512,
        513, 536, 537, 1_024, 1_025, 4_096, 4_097, 16_000,
    ]);
    for length in lengths {
        for begin in ["q", "Q"] {
            for later in ["w", "W", "0", "9", "_"] {
                let name = format!("{begin}{}", later.repeat(length - 1));
                let good = length <= 24;
                for (before, after) in [
                    ("events ", " ."),
                    ("events a ", " ."),
                    ("events a . ", " -> a ."),
                    ("events a . a ", " -> a ."),
                    ("events a . a -> ", " ."),
                    ("events a . a -> a ", " ."),
                    ("events a . a -> #", " ."),
                ] {
                    let text = format!("{before}{name}{after}");
                    if good {
                        let reading = read(text.as_bytes()).unwrap();
                        let names = [&reading.symbols[..], &reading.verdicts].concat();
                        assert!(names.contains(&name.clone().into_bytes()));
                    } else {
                        let place = before.trim_end_matches('#').len();
                        expect_refused(&text, 3, place);
                    }
                }
                // At the end of the text, and where no name may stand.
                let text = format!("events a . a -> {name}");
                let (refusal, place) = if good { (4, text.len()) } else { (3, 16) };
                expect_refused(&text, refusal, place);
                let refusal = if good { 4 } else { 3 };
                expect_refused(format!("events a . a -> #x {name}"), refusal, 19);
                expect_refused(&name, refusal, 0);
                expect_refused(format!("#{name}"), refusal, 0);
            }
        }
    }
}

/// The longest names in every slot.
#[test]
fn longest_names_everywhere() {
    let long = |letter: char, number: usize| format!("{letter}{number:023}");
    let mut text = "events".to_string();
    for symbol in 0..32 {
        text += &format!(" {}", long('s', symbol));
    }
    text += " .";
    for word in 0..14 {
        let left = long('s', 31 - word);
        text += &format!(" {left} -> #{} .", long('w', word));
    }
    let reading = read_into_all(text.as_bytes()).unwrap();
    assert_eq!((reading.set.symbols, reading.set.verdicts), (32, 16));
    let lengths: Vec<u8> = reading.slots().chunks(25).map(|slot| slot[0]).collect();
    assert_eq!(lengths[..32], [24; 32]);
    assert_eq!(lengths[32..34], [4, 7]);
    assert_eq!(lengths[34..], [24; 14]);
}

/// Symbols named as events, and the others in left sides or in right sides.
#[test]
fn symbols() {
    for events in 1..=36 {
        for others in 0..=36 - events {
            for (before, after) in [("AA", "-> AA ."), ("AA AA ->", "."), ("AA -> AA AA", ".")] {
                let mut list = tokens("events");
                list.extend((0..events).map(name));
                list.push(".".into());
                // The token that names each symbol first.
                let mut first: Vec<usize> = (1..=events).collect();
                for number in events..events + others {
                    list.extend(tokens(before));
                    first.push(list.len());
                    list.push(name(number));
                    list.extend(tokens(after));
                }
                let Some(&last) = first.get(32) else {
                    let reading = read(list.join(" ").as_bytes()).unwrap();
                    assert_eq!(usize::from(reading.set.symbols), events + others);
                    assert_eq!(usize::from(reading.set.events), events);
                    assert_eq!(reading.set.rules.len(), others);
                    continue;
                };
                let (text, place) = text_and_place(&list, last);
                expect_refused(&text, 5, place);
                // Each of the 32 symbols may be named again instead, though not as an event.
                for number in 0..32 {
                    list[last] = name(number);
                    let (text, place) = text_and_place(&list[..=last], last);
                    if events > 32 {
                        expect_refused(&text, 6, place);
                    } else {
                        expect_refused(&text, 4, text.len());
                    }
                }
            }
        }
    }
}

#[test]
fn rules() {
    for (rule, length) in [
        ("a -> a .", 1),
        ("a -> #fail .", 0),
        ("a -> #epsilon .", 0),
        ("^ a -> a .", 1),
        ("^ a -> #x .", 0),
    ] {
        for count in 0..=70 {
            let text = format!("events a .\n{}", format!("{rule}\n").repeat(count));
            if count <= 64 {
                let reading = read(text.as_bytes()).unwrap();
                assert_eq!(reading.set.rules.len(), count);
                assert_eq!(reading.image().len(), 4 + (4 + 1 + length) * count);
            } else {
                // The name, behind a `^`.
                let name = rule.find('a').expect("a name");
                expect_refused(&text, 5, 11 + 64 * (rule.len() + 1) + name);
            }
        }
        // What may stand behind rule 64, and what not.
        let text = format!("events a . {}", format!("{rule} ").repeat(64));
        for (next, refusal) in [
            ("a", 5),
            ("b", 5),
            ("events", 5),
            ("->", 4),
            (".", 4),
            ("#x", 4),
            ("#epsilon", 4),
            ("a.", 3),
            ("%", 3),
        ] {
            expect_refused(format!("{text}{next}"), refusal, text.len());
            expect_refused(format!("{text}\n {next} -> a ."), refusal, text.len() + 2);
            // The same behind a `^`, which is taken.
            expect_refused(format!("{text}^ {next}"), refusal, text.len() + 2);
            expect_refused(format!("{text}^\t\n{next} -> a ."), refusal, text.len() + 3);
        }
        expect_refused(format!("{text}^"), 4, text.len() + 1);
        expect_refused(format!("{text}^ ^ a"), 4, text.len() + 2);
    }
}

#[test]
fn sides() {
    for length in 1..=12 {
        for repeated in [true, false] {
            let side: Vec<String> = (0..length)
                .map(|place| name(if repeated { 7 } else { place }))
                .collect();
            let side = side.join(" ");
            // Eight names of two bytes with a space behind each.
            for (before, after) in [
                ("events a . ", " -> a ."),
                ("events a . ", " -> #x ."),
                ("events a . ^ ", " -> a ."),
                ("events a . ^\n", " -> #epsilon ."),
                ("events a . a -> ", " ."),
            ] {
                let text = format!("{before}{side}{after}");
                if length <= 8 {
                    let reading = read(text.as_bytes()).unwrap();
                    let rule = &reading.set.rules[0];
                    let found = match &rule.right {
                        Right::Symbols(right) => rule.left.len().max(right.len()),
                        Right::Verdict(_) => rule.left.len(),
                    };
                    assert_eq!(found, length);
                } else {
                    expect_refused(&text, 5, before.len() + 8 * 3);
                }
            }
        }
    }
    // Both sides of a rule are counted for themselves, and those of each rule.
    let eight = "a a a a a a a a";
    let text = format!("events a . {}", format!("{eight} -> {eight} . ").repeat(3));
    let reading = read(text.as_bytes()).unwrap();
    assert_eq!(reading.image().len(), 4 + 3 * (4 + 16));
    // A rule with a word behind one with eight names, and the other way round.
    let text = format!("events a . a -> {eight} . a -> #x . {eight} -> #epsilon . a -> {eight} .");
    assert_eq!(read(text.as_bytes()).unwrap().set.rules.len(), 4);
}

/// Other words, with those that are not counted among them.
#[test]
fn words() {
    for more in ["", "a -> #fail .", "a -> #succeed .", "a -> #epsilon ."] {
        for count in 0..=18 {
            let mut list = tokens("events a .");
            let mut last = None;
            for word in 0..count {
                list.extend(tokens(more));
                list.extend(tokens("a ->"));
                if word == 14 {
                    last = Some(list.len());
                }
                list.push(format!("#{}", name(word)));
                list.push(".".into());
            }
            match last {
                None => {
                    let reading = read(list.join(" ").as_bytes()).unwrap();
                    assert_eq!(usize::from(reading.set.verdicts), 2 + count);
                    let words: Vec<String> = (0..count).map(name).collect();
                    assert_eq!(
                        reading.verdicts[2..],
                        words
                            .iter()
                            .map(|word| word.clone().into_bytes())
                            .collect::<Vec<_>>()
                    );
                }
                Some(last) => {
                    let (text, place) = text_and_place(&list, last);
                    expect_refused(&text, 5, place);
                    // A word that was read before may stand there instead.
                    for word in ["#fail", "#succeed", "#epsilon"]
                        .map(String::from)
                        .into_iter()
                        .chain((0..14).map(|word| format!("#{}", name(word))))
                    {
                        list.truncate(last);
                        list.push(word);
                        list.push(".".into());
                        let reading = read(list.join(" ").as_bytes()).unwrap();
                        assert_eq!(reading.set.verdicts, 16);
                    }
                }
            }
        }
    }
}

/// 32 symbols, 64 rules, 14 other words and sides of eight names in one text.
#[test]
fn all_limits_at_once() {
    let mut text = "events".to_string();
    for symbol in 0..32 {
        text += &format!(" {}", name(symbol));
    }
    text += " .\r\n";
    for rule in 0..64 {
        let side = |salt: usize| -> String {
            let names: Vec<String> = (0..8)
                .map(|place| name((rule * salt + place) % 32))
                .collect();
            names.join(" ")
        };
        if rule < 14 {
            text += &format!("{} -> #{} .\n", side(3), name(rule));
        } else {
            text += &format!("{} -> {} .\n", side(3), side(5));
        }
    }
    let reading = read_into_all(text.as_bytes()).unwrap();
    let set = &reading.set;
    assert_eq!((set.symbols, set.events, set.verdicts), (32, 32, 16));
    assert_eq!(set.rules.len(), 64);
    assert_eq!(reading.image().len(), 4 + 64 * 4 + 64 * 8 + 50 * 8);
    // One byte more of anything breaks it.
    let end = text.len();
    expect_refused(format!("{text}AA"), 5, end);
    expect_refused(format!("{text}."), 4, end);
    expect_refused(format!("{text}!"), 3, end);
}

/// A text made this long by separators, at its beginning, in its middle or at its end.
fn padded(text: &str, length: usize, place: usize) -> Vec<u8> {
    let (before, after) = text.split_at(place);
    let padding = length - text.len();
    let separators = " \t\r\n".bytes().cycle().take(padding).collect::<Vec<u8>>();
    [before.as_bytes(), &separators, after.as_bytes()].concat()
}

#[test]
fn texts_of_every_length() {
    let good = "events a b . a -> #late . b a -> a .";
    let wanted = read(good.as_bytes());
    for length in [
        100, 255, 256, 257, 4_096, 8_191, 8_192, 16_382, 16_383, 16_384, 16_385, 16_386, 20_480,
        32_767, 32_768, 40_000, 65_535, 65_536, 65_537, 65_600, 81_920, 81_921, 131_072, 131_172,
    ] {
        for place in [0, 7, 13, good.len()] {
            let text = padded(good, length, place);
            assert_eq!(text.len(), length);
            let long: Result<Reading, Refused> = Err(Refused {
                refusal: 1,
                place: 0,
            });
            let wanted = if length <= LONGEST { &wanted } else { &long };
            expect(&text, [IMAGE_AREA, NAME_AREA], wanted);
            assert_eq!(read(&text), *wanted);
        }
        // Text that is all one run, and text that is all separators.
        let (run, place) = if length <= LONGEST { (3, 0) } else { (1, 0) };
        expect_refused(vec![b'a'; length], run, place);
        expect_refused(vec![b'.'; length], run, place);
        let (refusal, place) = if length <= LONGEST {
            (4, length)
        } else {
            (1, 0)
        };
        expect_refused(vec![b' '; length], refusal, place);
        expect_refused(vec![b'\n'; length], refusal, place);
    }
}

/// The first 16,384 bytes are a good text, or would be one with the next.
#[test]
fn texts_that_are_good_up_to_the_limit() {
    let good = padded("events a . a -> a .", LONGEST, 7);
    assert!(read(&good).is_ok());
    for more in [&b" "[..], b"\n", b".", b"a", b"#", b"\0", b" a -> a ."] {
        expect_refused([&good, more].concat(), 1, 0);
    }
    let ended = &good[..LONGEST - 1];
    expect_refused(ended, 4, LONGEST - 1);
    let moved = padded("events a . a -> a", LONGEST, 7);
    expect_refused(&moved, 4, LONGEST);
    expect_refused([&moved[..], b" ."].concat(), 1, 0);
    // A token that begins at the last byte.
    for (last, refusal) in [("a", 5), (".", 4), ("#", 3), ("-", 3), ("\0", 3)] {
        let text = format!("events a . a a a a a a a a {last}");
        let text = padded(&text, LONGEST, 0);
        expect_refused(&text, refusal, LONGEST - 1);
    }
}

/// The places of tokens far from the text's beginning.
#[test]
fn places_of_every_size() {
    for padding in [
        0, 1, 100, 246, 247, 248, 249, 250, 1_000, 4_095, 10_000, 16_000,
    ] {
        for (text, refusal, place) in [
            ("events a a.", 3, 9),
            ("events a ->", 4, 9),
            ("events a . a a a a a a a a a", 5, 27),
            ("events a a", 6, 9),
            ("events a", 4, 8),
        ] {
            let spaces = " ".repeat(padding);
            expect_refused(format!("{spaces}{text}"), refusal, padding + place);
            let (before, after) = text.split_at(7);
            let padded = format!("{before}{spaces}{after}");
            expect_refused(padded, refusal, padding + place);
            let padded = format!("{text}{spaces}");
            let more = if place == text.len() { padding } else { 0 };
            expect_refused(padded, refusal, place + more);
        }
    }
}

/// Areas of every length up to some bytes more than needed.
#[test]
fn areas_of_every_length() {
    let texts = [
        "events lock take free . lock take -> held . held free -> #epsilon . take -> #fail .",
        "events a .",
        "events a",
        "",
    ];
    for text in texts {
        let text = text.as_bytes();
        let wanted = read(text);
        for image_area in 0..=IMAGE_AREA + 20 {
            let found = read_into(text, [image_area, NAME_AREA]);
            assert_eq!(found == wanted, image_area >= IMAGE_AREA);
        }
        for name_area in 0..=NAME_AREA + 30 {
            let found = read_into(text, [IMAGE_AREA, name_area]);
            assert_eq!(found == wanted, name_area >= NAME_AREA);
        }
        for areas in [[0, 0], [1_200, 1_284], [1_283, 10_000], [10_000, 1_199]] {
            let refused = read_into(text, areas).unwrap_err();
            assert_eq!((refused.refusal, refused.place), (2, 0));
        }
        for areas in [[65_536, 1_200], [1_284, 65_536], [70_000, 70_000]] {
            assert_eq!(read_into(text, areas), wanted);
        }
    }
}
