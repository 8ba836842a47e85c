//! Rule texts with images and slots, or refusals and places, that are written out by hand.

mod common;

use common::texts::{expect, expect_refused, read, read_into_all};
use common::{SAMPLE, SAMPLE_IMAGE};
use reference::reader::{Reading, Refused, IMAGE_AREA, NAME_AREA};
use watcher::raw;

/// Slots with these names: symbols from slot 0 on, verdicts from slot 32 on.
fn slots(symbols: &[&str], verdicts: &[&str]) -> Vec<u8> {
    let mut slots = vec![0; 48 * 25];
    let numbered = (0..).zip(symbols).chain((32..).zip(verdicts));
    for (slot, name) in numbered {
        slots[25 * slot] = name.len() as u8;
        slots[25 * slot + 1..][..name.len()].copy_from_slice(name.as_bytes());
    }
    slots
}

/// Expects this image and these names, from the library and from the reference. The other words are
/// those besides `fail` and `succeed`.
#[track_caller]
fn expect_read(text: impl AsRef<[u8]>, image: &[u8], symbols: &[&str], others: &[&str]) {
    let text = text.as_ref();
    let (mut found, mut names) = ([0xaa; IMAGE_AREA], [0xbb; NAME_AREA]);
    let mut out = [7; 2];
    let refusal = raw::read_rules(text, &mut found, &mut names, &mut out);
    let verdicts = [&["fail", "succeed"], others].concat();
    assert_eq!((refusal, out), (0, [image.len() as u64, 0]));
    assert_eq!(found[..image.len()], *image);
    assert!(found[image.len()..].iter().all(|&byte| byte == 0xaa));
    assert_eq!(names[..], slots(symbols, &verdicts));

    let reading = read_into_all(text).unwrap();
    assert_eq!(reading.image(), image);
    assert_eq!(reading.slots(), slots(symbols, &verdicts));
}

/// The place of the only `|` in the text, and the text without it.
fn pointed(text: &str) -> (usize, String) {
    assert_eq!(text.matches('|').count(), 1, "{text}");
    let place = text.find('|').expect("a place");
    (place, text.replace('|', ""))
}

/// Expects a refusal at the place of the only `|`, which is not a part of the text.
#[track_caller]
fn expect_refused_at(text: &str, refusal: u32) {
    let (place, text) = pointed(text);
    expect_refused(text, refusal, place);
}

#[test]
fn sample() {
    let symbols = ["lock", "take", "free", "held"];
    expect_read(SAMPLE, &SAMPLE_IMAGE, &symbols, &[]);
    let mut names = vec![0; 1_200];
    names[..5].copy_from_slice(b"\x04lock");
    names[25..][..5].copy_from_slice(b"\x04take");
    names[50..][..5].copy_from_slice(b"\x04free");
    names[75..][..5].copy_from_slice(b"\x04held");
    names[800..][..5].copy_from_slice(b"\x04fail");
    names[825..][..8].copy_from_slice(b"\x07succeed");
    assert_eq!(slots(&symbols, &["fail", "succeed"]), names);
}

#[test]
fn sample_with_other_separators() {
    for separators in ["\t", "\r", "\n", "\r\n", "  ", " \t\r\n \n"] {
        let text = String::from_utf8(SAMPLE.to_vec()).unwrap();
        let text = text.replace(' ', separators);
        let symbols = ["lock", "take", "free", "held"];
        for text in [
            text.clone(),
            format!("{separators}{text}"),
            format!("{text}{separators}"),
            format!("{separators}{text}{separators}"),
        ] {
            expect_read(text, &SAMPLE_IMAGE, &symbols, &[]);
        }
    }
}

/// Symbols and words are numbered as they first appear, whatever their names and places.
#[test]
fn numbers_by_first_appearance() {
    expect_read(
        "events z y . b y -> a z b . a c -> #zz . c -> #aa . b -> #succeed . z -> #zz . z -> d .",
        &[
            6, 6, 4, 2, //
            2, 0, 3, 0, //
            2, 1, 2, 0, //
            1, 1, 3, 0, //
            1, 1, 1, 0, //
            1, 1, 2, 0, //
            1, 0, 1, 0, //
            2, 1, // b y
            3, 0, 2, // a z b
            3, 4, // a c
            4, // c
            2, // b
            0, // z
            0, // z
            5, // d
        ],
        &["z", "y", "b", "a", "c", "d"],
        &["zz", "aa"],
    );
}

/// One event and no rules: a text that ends after the events is complete.
#[test]
fn no_rules() {
    expect_read("events a .", &[1, 0, 2, 1], &["a"], &[]);
    expect_read("events a .\n", &[1, 0, 2, 1], &["a"], &[]);
    expect_read("events Z9_ b .", &[2, 0, 2, 2], &["Z9_", "b"], &[]);
}

/// The same rule twice, and a side that repeats a name.
#[test]
fn repeated_names_in_rules() {
    expect_read(
        "events a . a a -> a a a . a a -> a a a .",
        &[
            1, 2, 2, 1, //
            2, 0, 3, 0, //
            2, 0, 3, 0, //
            0, 0, 0, 0, 0, //
            0, 0, 0, 0, 0, //
        ],
        &["a"],
        &[],
    );
}

/// A run that holds a token and more is no token. Its first byte is the place.
#[test]
fn runs_that_are_no_tokens() {
    for text in [
        "events |a.",
        "events |a. a -> a .",
        "events a |.a",
        "events a . |a->b .",
        "events a . |a-> b .",
        "events a . a |->b .",
        "events a . a -> |#fail.",
        "events a . a -> |a.",
        "|events. a .",
        "|events\u{b}a .",
    ] {
        expect_refused_at(text, 3);
    }
    for run in [
        "#", "##", "##a", "#9", "#_a", "#.", "#->", "#a#", "a#", "a#b", "-", "--", ">", "->>",
        "-->", "->-", "->.", ".->", "..", "...", "9", "9a", "_", "_a", "a-b", "a.b", ",", "%",
        "a%", "\0", "a\0", "\u{b}", "\u{c}", "a\u{b}b", "a\u{c}b", "\u{1b}", "\u{7f}", "é", "aé",
        "#é", "\u{a0}", "a\u{85}", "(a)", "a'", "\"a\"", "@", "[", "`", "{", "/", ":", "a@", "a[",
        "a`", "a{", "a/", "a:", "#a@", "#@", "#[", "#`", "#{", "\u{feff}", "^^", "^a", "a^", "#^",
        "^#", "^#x", "#x^", "^.", ".^", "^->", "->^", "^events", "\u{2c6}", "^\u{b}",
    ] {
        expect_refused_at(&format!("|{run}"), 3);
        expect_refused_at(&format!("|{run} events a ."), 3);
        expect_refused_at(&format!("events |{run} ."), 3);
        expect_refused_at(&format!("events a |{run} ."), 3);
        expect_refused_at(&format!("events a . |{run} -> a ."), 3);
        expect_refused_at(&format!("events a . a |{run} a ."), 3);
        expect_refused_at(&format!("events a . a -> |{run} ."), 3);
        expect_refused_at(&format!("events a . a -> a |{run}"), 3);
        expect_refused_at(&format!("events a . a -> #x |{run}"), 3);
        expect_refused_at(&format!("events a . a -> #x . |{run}"), 3);
    }
    // `#` and a name apart.
    expect_refused_at("events a . a -> |# x .", 3);
    // `-` and `>` apart.
    expect_refused_at("events a . a |- > a .", 3);
}

/// Each byte alone, in a name, behind a name, and in place of each separator.
#[test]
fn every_byte() {
    for byte in 0..=255u8 {
        let text = |before: &str, after: &str| -> Vec<u8> {
            [before.as_bytes(), &[byte], after.as_bytes()].concat()
        };
        let separator = [b' ', b'\t', b'\r', b'\n'].contains(&byte);
        let letter = byte.is_ascii_alphabetic();
        let later = letter || byte.is_ascii_digit() || byte == b'_';

        // A run of its own.
        let alone = text("events a ", " . ");
        if letter && byte != b'a' {
            let name = [byte];
            let name = std::str::from_utf8(&name).unwrap();
            expect_read(&alone, &[2, 0, 2, 2], &["a", name], &[]);
        } else if byte == b'a' {
            expect_refused(&alone, 6, 9);
        } else if separator {
            expect_read(&alone, &[1, 0, 2, 1], &["a"], &[]);
        } else if byte == b'.' {
            expect_refused(&alone, 4, 11);
        } else if byte == b'^' {
            expect_refused(&alone, 4, 9);
        } else {
            expect_refused(&alone, 3, 9);
        }

        // At a name's beginning and at its end.
        let begins = text("events ", "a .");
        let ends = text("events a", " .");
        if later {
            let name = [b'a', byte];
            let name = std::str::from_utf8(&name).unwrap();
            expect_read(&ends, &[1, 0, 2, 1], &[name], &[]);
        } else if separator {
            expect_read(&ends, &[1, 0, 2, 1], &["a"], &[]);
        } else {
            expect_refused(&ends, 3, 7);
        }
        if letter {
            let name = [byte, b'a'];
            let name = std::str::from_utf8(&name).unwrap();
            expect_read(&begins, &[1, 0, 2, 1], &[name], &[]);
        } else if separator {
            expect_read(&begins, &[1, 0, 2, 1], &["a"], &[]);
        } else if byte == b'#' {
            expect_refused(&begins, 4, 7);
        } else {
            expect_refused(&begins, 3, 7);
        }

        // The same behind `#`.
        let image = [1, 1, 3, 1, 1, 1, 2, 0, 0];
        let begins = text("events a . a -> #", "x .");
        let ends = text("events a . a -> #x", " .");
        if later {
            let name = [b'x', byte];
            let name = std::str::from_utf8(&name).unwrap();
            expect_read(&ends, &image, &["a"], &[name]);
        } else if separator {
            expect_read(&ends, &image, &["a"], &["x"]);
        } else {
            expect_refused(&ends, 3, 16);
        }
        if letter {
            let name = [byte, b'x'];
            let name = std::str::from_utf8(&name).unwrap();
            expect_read(&begins, &image, &["a"], &[name]);
        } else {
            expect_refused(&begins, 3, 16);
        }

        // Between two tokens.
        let between = text("events", "a .");
        if separator {
            expect_read(&between, &[1, 0, 2, 1], &["a"], &[]);
        } else if later {
            expect_refused(&between, 4, 0);
        } else {
            expect_refused(&between, 3, 0);
        }
    }
}

/// No word is reserved.
#[test]
fn names_that_mean_something_elsewhere() {
    expect_read(
        "events events . events -> events .",
        &[1, 1, 2, 1, 1, 0, 1, 0, 0, 0],
        &["events"],
        &[],
    );
    expect_read(
        "events fail epsilon succeed . fail epsilon -> succeed . events -> #fail .",
        &[4, 2, 2, 3, 2, 0, 1, 0, 1, 1, 0, 0, 0, 1, 2, 3],
        &["fail", "epsilon", "succeed", "events"],
        &[],
    );
    // `#events` is an ordinary word, and no `events`.
    expect_read(
        "events a . a -> #events .",
        &[1, 1, 3, 1, 1, 1, 2, 0, 0],
        &["a"],
        &["events"],
    );
    expect_refused_at("|#events a .", 4);
    // A word and a symbol may have the same name.
    expect_read(
        "events a . a -> #a . a -> a .",
        &[1, 2, 3, 1, 1, 1, 2, 0, 1, 0, 1, 0, 0, 0, 0],
        &["a"],
        &["a"],
    );
}

/// `#fail` and `#succeed` are verdicts 0 and 1 wherever they appear, and have their slots in any case.
#[test]
fn verdicts() {
    for (word, verdict) in [("fail", 0), ("succeed", 1)] {
        expect_read(
            format!("events a . a -> #{word} ."),
            &[1, 1, 2, 1, 1, 1, verdict, 0, 0],
            &["a"],
            &[],
        );
    }
    expect_read(
        "events a . a -> #x . a -> #succeed . a -> #fail . a -> #y . a -> #x .",
        &[
            1, 5, 4, 1, //
            1, 1, 2, 0, //
            1, 1, 1, 0, //
            1, 1, 0, 0, //
            1, 1, 3, 0, //
            1, 1, 2, 0, //
            0, 0, 0, 0, 0, //
        ],
        &["a"],
        &["x", "y"],
    );
    // Words that nearly are these.
    for word in [
        "Fail", "fai", "fails", "FAIL", "succeeds", "Epsilon", "epsilo", "epsilons",
    ] {
        expect_read(
            format!("events a . a -> #{word} ."),
            &[1, 1, 3, 1, 1, 1, 2, 0, 0],
            &["a"],
            &[word],
        );
    }
}

/// `#epsilon` is the empty string, and has neither a number nor a slot.
#[test]
fn the_empty_string() {
    expect_read(
        "events a . a -> #epsilon . a -> #x . a -> #epsilon . a -> #y .",
        &[
            1, 4, 4, 1, //
            1, 0, 0, 0, //
            1, 1, 2, 0, //
            1, 0, 0, 0, //
            1, 1, 3, 0, //
            0, 0, 0, 0, //
        ],
        &["a"],
        &["x", "y"],
    );
    expect_refused_at("events a . a -> #epsilon |a .", 4);
    expect_refused_at("events a . a -> #epsilon |#epsilon .", 4);
}

/// Names are the same if all their bytes are.
#[test]
fn names_that_are_nearly_the_same() {
    let long = "abcdefghijklmnopqrstuvw";
    let names = [
        "a",
        "A",
        "aa",
        "aA",
        "a_",
        "a0",
        "a1",
        "ab",
        "aba",
        "abb",
        "abcdefgh",
        "abcdefgH",
        "abcdefghi",
        "abcdefghj",
        long,
    ];
    let (longest, other) = (format!("{long}x"), format!("{long}y"));
    let names = [&names[..], &[&longest, &other]].concat();
    let count = names.len() as u8;
    let text = format!("events {} .", names.join(" "));
    expect_read(text, &[count, 0, 2, count], &names, &[]);

    // The same names as words, as far as there may be words.
    let words = &names[3..];
    assert_eq!(words.len(), 14);
    let mut text = "events x .".to_string();
    let mut image = vec![1, 14, 16, 1];
    for (verdict, word) in (2..).zip(words) {
        text += &format!(" x -> #{word} .");
        image.extend([1, 1, verdict, 0]);
    }
    image.extend([0; 14]);
    expect_read(text, &image, &["x"], words);
}

/// Every token that is not allowed, in every place.
#[test]
fn tokens_in_wrong_places() {
    for text in [
        // First `events`.
        "|a a .",
        "|event a .",
        "|eventsx a .",
        "|Events a .",
        "|EVENTS a .",
        "|. a .",
        "|-> a .",
        "|#x a .",
        "|#events a .",
        "|^ a .",
        "|^ events a .",
        // Then a name.
        "events |.",
        "events |. a .",
        "events |-> .",
        "events |#x .",
        "events |#epsilon .",
        "events |^ a .",
        // Then names or `.`.
        "events a |-> a .",
        "events a |#x .",
        "events a |^ b .",
        "events a |^ .",
        // Then a rule or the end.
        "events a . |.",
        "events a . |-> a .",
        "events a . |#x -> a .",
        // Behind a `^` a name.
        "events a . ^ |-> a .",
        "events a . ^ |.",
        "events a . ^ |#x -> a .",
        "events a . ^ |^ a -> a .",
        // Then names or `->`.
        "events a . a |.",
        "events a . a |#x -> a .",
        "events a . a a |. ",
        "events a . a a |#epsilon",
        "events a . a |^ -> a .",
        "events a . a |^ a -> a .",
        "events a . ^ a |^ a -> a .",
        "events a . ^ a |. ",
        "events a . ^ a |#x -> a .",
        // Then a name or a word.
        "events a . a -> |.",
        "events a . a -> |-> a .",
        "events a . a -> |^ a .",
        "events a . ^ a -> |^ .",
        // Then names or `.`.
        "events a . a -> a |#x .",
        "events a . a -> a |-> a .",
        "events a . a -> a a |#epsilon .",
        "events a . a -> a |^ a .",
        "events a . a -> a |^ .",
        // Behind a word `.`.
        "events a . a -> #x |a .",
        "events a . a -> #x |#x .",
        "events a . a -> #x |-> a .",
        "events a . a -> #fail |#fail .",
        "events a . a -> #x |^ .",
        "events a . a -> #epsilon |^ a -> a .",
        // Then a rule or the end.
        "events a . a -> #x . |.",
        "events a . a -> a . |-> a .",
        "events a . a -> a . |#x .",
        "events a . a -> a . |#epsilon -> a .",
    ] {
        expect_refused_at(text, 4);
    }
}

/// The end of the text is its full length, with the separators behind the last token.
#[test]
fn texts_that_end() {
    for end in ["", " ", "\n", " \t\r\n ", "            "] {
        for text in [
            "",
            "events",
            "events a",
            "events a b",
            "events a . a",
            "events a . a b",
            "events a . a ->",
            "events a . a -> a",
            "events a . a -> a b",
            "events a . a -> #x",
            "events a . a -> #epsilon",
            "events a . a -> a . b",
            "events a . ^",
            "events a . a -> a . ^",
            "events a . ^ a",
            "events a . ^ a ->",
        ] {
            expect_refused_at(&format!("{text}{end}|"), 4);
        }
        let image = [1, 1, 2, 1, 1, 0, 1, 0, 0, 0];
        expect_read(format!("events a . a -> a .{end}"), &image, &["a"], &[]);
    }
}

/// The first token at which the text breaks decides, whatever follows.
#[test]
fn the_first_break_decides() {
    for (text, refusal) in [
        ("events a |a a. -> .", 6),
        ("events a |a. a -> .", 3),
        ("events a |-> a a a. ", 4),
        ("|a events a a a.", 4),
        ("events a . a -> |. a. b b b b b b b b b", 4),
        ("events a . b b b b b b b b |b a. -> .", 5),
        ("events a b |b b ", 6),
        ("events a b . a -> a |-> ", 4),
    ] {
        expect_refused_at(text, refusal);
    }
}

/// Of several causes of one token the first in 3, 4, 5, 6 decides.
#[test]
fn one_token_with_several_causes() {
    let eight = "a a a a a a a a";
    // The ninth place of a side.
    expect_refused_at(&format!("events a . {eight} |a -> a ."), 5);
    expect_refused_at(&format!("events a . {eight} |b -> a ."), 5);
    expect_refused_at(&format!("events a . {eight} |#x -> a ."), 4);
    expect_refused_at(&format!("events a . {eight} |. a ."), 4);
    expect_refused_at(&format!("events a . {eight} |a. a ."), 3);
    expect_refused_at(&format!("events a . {eight} |^ a ."), 4);
    expect_refused_at(&format!("events a . {eight} |^a a ."), 3);
    expect_refused_at(&format!("events a . ^ {eight} |a -> a ."), 5);
    expect_refused_at(&format!("events a . ^ {eight} |b -> a ."), 5);
    expect_refused_at(&format!("events a . ^ {eight} |^ -> a ."), 4);
    expect_refused_at(&format!("events a . ^ {eight} |#x -> a ."), 4);
    expect_refused_at(&format!("events a . a -> {eight} |a ."), 5);
    expect_refused_at(&format!("events a . a -> {eight} |b ."), 5);
    expect_refused_at(&format!("events a . a -> {eight} |#x ."), 4);
    expect_refused_at(&format!("events a . a -> {eight} |-> a ."), 4);
    expect_refused_at(&format!("events a . a -> {eight} |9 ."), 3);

    // Where rule 65 would begin.
    let rules = "a -> a . ".repeat(64);
    expect_refused_at(&format!("events a . {rules}|a -> a ."), 5);
    expect_refused_at(&format!("events a . {rules}|b"), 5);
    expect_refused_at(&format!("events a . {rules}|-> a ."), 4);
    expect_refused_at(&format!("events a . {rules}|#x ."), 4);
    expect_refused_at(&format!("events a . {rules}|. a"), 4);
    expect_refused_at(&format!("events a . {rules}|a. a"), 3);
    expect_refused_at(&format!("events a . {rules}|#"), 3);
    // A `^` is taken there, and what stands behind it decides.
    expect_refused_at(&format!("events a . {rules}^ |a -> a ."), 5);
    expect_refused_at(&format!("events a . {rules}^ |b"), 5);
    expect_refused_at(&format!("events a . {rules}^ |-> a ."), 4);
    expect_refused_at(&format!("events a . {rules}^ |^ a"), 4);
    expect_refused_at(&format!("events a . {rules}^ |. a"), 4);
    expect_refused_at(&format!("events a . {rules}^ |#x a"), 4);
    expect_refused_at(&format!("events a . {rules}^ |a. a"), 3);
    expect_refused_at(&format!("events a . {rules}|^a -> a ."), 3);
    expect_refused_at(&format!("events a . {rules}^|"), 4);
    expect_refused_at(&format!("events a . {rules}^ \n|"), 4);

    // Where the 33rd symbol or a repeated event stands.
    let names: Vec<String> = (0..32).map(|number| format!("n{number}")).collect();
    let events = names.join(" ");
    expect_refused_at(&format!("events {events} |n0 ."), 6);
    expect_refused_at(&format!("events {events} |n31 ."), 6);
    expect_refused_at(&format!("events {events} |n32 ."), 5);
    expect_refused_at(&format!("events {events} |#n0 ."), 4);
    expect_refused_at(&format!("events {events} |-> ."), 4);
    expect_refused_at(&format!("events {events} |n0. "), 3);
    expect_refused_at(&format!("events {events} . |x -> #x ."), 5);
    expect_refused_at(&format!("events {events} . ^ |x -> #x ."), 5);
    expect_refused_at(&format!("events {events} . ^ n0 |x -> #x ."), 5);
    expect_refused_at(&format!("events {events} |^ ."), 4);
    expect_refused_at(&format!("events {events} . n0 |x -> #x ."), 5);
    expect_refused_at(&format!("events {events} . n0 -> |x ."), 5);
    expect_refused_at(&format!("events {events} . n0 -> n1 |x ."), 5);
    expect_refused_at(&format!("events {events} . n0 -> n1 |#x ."), 4);

    // Where the 15th other word stands.
    let words: Vec<String> = (0..14).map(|word| format!("a -> #w{word} . ")).collect();
    let words = words.concat();
    expect_refused_at(&format!("events a . {words}a -> |#v ."), 5);
    expect_refused_at(&format!("events a . {words}a -> a |#v ."), 4);
    expect_refused_at(&format!("events a . {words}a -> #w0 |#v ."), 4);
    expect_refused_at(&format!("events a . {words}a |#v -> a ."), 4);
    expect_refused_at(&format!("events a . {words}a -> |#v."), 3);
}

/// The list of events is not a side, and a repeated event is refused wherever it was first named.
#[test]
fn lists_of_events() {
    expect_read(
        "events a b c d e f g h i .",
        &[9, 0, 2, 9],
        &["a", "b", "c", "d", "e", "f", "g", "h", "i"],
        &[],
    );
    expect_refused_at("events a |a .", 6);
    expect_refused_at("events a b |a .", 6);
    expect_refused_at("events a b |b .", 6);
    expect_refused_at("events a b c |b d .", 6);
    expect_refused_at("events events |events .", 6);
    expect_refused_at("events a |a", 6);
    // An event may be named again in the rules.
    let image = [1, 1, 2, 1, 2, 0, 1, 0, 0, 0, 0];
    expect_read("events a . a a -> a .", &image, &["a"], &[]);
}

/// Over 16,384 bytes comes before areas too short, and that before whatever the text says. Both have
/// place 0.
#[test]
fn the_order_of_refusals() {
    let long = [b' '; 16_385];
    let refused = |refusal| -> Result<Reading, Refused> { Err(Refused { refusal, place: 0 }) };
    for areas in [[0, 0], [1_283, 1_200], [1_284, 1_199], [1_284, 1_200]] {
        expect(&long, areas, &refused(1));
    }
    for text in [
        SAMPLE,
        b"",
        b"   a.",
        b"events .",
        b"events a a .",
        &long[1..],
    ] {
        for areas in [
            [0, 0],
            [0, 1_200],
            [1_284, 0],
            [22, 1_200],
            [1_283, 1_200],
            [1_284, 1_199],
            [1_283, 1_199],
            [5_000, 1_199],
            [1_283, 5_000],
        ] {
            expect(text, areas, &refused(2));
        }
    }
    expect_refused(&long[1..], 4, 16_384);
    read(SAMPLE).unwrap();
}
