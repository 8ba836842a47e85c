//! Inputs with outputs that are written out by hand: every kind of line, every refusal, names of any
//! bytes, and each limit from both sides.

mod common;

use common::{expect_same, sample, SAMPLE_LINES, SAMPLE_RULES};
use std::io::{BufRead, BufReader, Write};
use std::process::{Command, Stdio};
use std::thread;

/// Expects this output, from the program and from the reference.
#[track_caller]
fn expect(input: impl AsRef<[u8]>, output: impl AsRef<[u8]>) {
    let (input, output) = (input.as_ref(), output.as_ref());
    expect_same(input, &program::watch(input), output);
    expect_same(input, &reference::watch::watch(input), output);
}

/// The name `count` times, with commas between.
fn times(count: usize, name: &str) -> String {
    vec![name; count].join(",")
}

/// A name of 24 bytes.
fn long(number: usize) -> String {
    format!("n{number:023}")
}

#[test]
fn the_sample() {
    expect(sample(), SAMPLE_LINES);
    expect(
        "events lock take free . lock take -> held . held free -> #epsilon . take -> #fail . \
         % lock take free take",
        "lock quiet 1 0 lock\n\
         take quiet 2 1 held\n\
         free quiet 1 1 -\n\
         take #fail 1 1 -\n",
    );
}

#[test]
fn separators() {
    for separators in [
        "\t",
        "\r",
        "\n",
        "\r\n",
        "  ",
        " \t\r\n\n\r\t ",
        &" ".repeat(70),
    ] {
        let text = sample().replace(' ', separators);
        expect(&text, SAMPLE_LINES);
        expect(format!("{separators}{text}"), SAMPLE_LINES);
        expect(format!("{text}{separators}"), SAMPLE_LINES);
    }
    // All four in one input, and none around the `%`.
    expect(
        "events\ta\rb\n.%a\tb\ra\nb",
        "a quiet 1 0 a\nb quiet 1 0 a,b\na quiet 1 0 a,b,a\nb quiet 1 0 a,b,a,b\n",
    );
    // Vertical tab, form feed and others separate nothing.
    for other in ["\x0b", "\x0c", "\0", "\x1c", "\x7f", ",", ";"] {
        expect(
            format!("events a b .%a{other}b a"),
            format!("a{other}b refused 12\na quiet 1 0 a\n"),
        );
    }
}

#[test]
fn refused_texts() {
    for (input, output) in [
        // 3: not a token.
        ("events a . a -> b. % a", "rules refused 3 16\n"),
        ("events a . a->b . % a", "rules refused 3 11\n"),
        ("events a . 9 -> a . % a", "rules refused 3 11\n"),
        ("events a . a -> #9 . % a", "rules refused 3 16\n"),
        ("events a . a -> # . % a", "rules refused 3 16\n"),
        ("events a\0 . % a", "rules refused 3 7\n"),
        ("\u{e9} events a . % a", "rules refused 3 0\n"),
        (
            "events b234567890123456789012345 . % a",
            "rules refused 3 7\n",
        ),
        // 4: not allowed here.
        ("event a . % a", "rules refused 4 0\n"),
        ("\n Events a . % a", "rules refused 4 2\n"),
        ("events . % a", "rules refused 4 7\n"),
        ("events a . -> a . % a", "rules refused 4 11\n"),
        ("events a . a . % a", "rules refused 4 13\n"),
        ("events a . a -> . % a", "rules refused 4 16\n"),
        ("events a . a -> #x a . % a", "rules refused 4 19\n"),
        ("events a . a -> a #x . % a", "rules refused 4 18\n"),
        ("events a . #x -> a . % a", "rules refused 4 11\n"),
        // 4: the text ended. The place is where the `%` stands.
        ("events % a", "rules refused 4 7\n"),
        ("events a % a", "rules refused 4 9\n"),
        ("events a . a % a", "rules refused 4 13\n"),
        ("events a . a -> % a", "rules refused 4 16\n"),
        ("events a . a -> b % a", "rules refused 4 18\n"),
        ("events a . a -> #b\r\n\t% a", "rules refused 4 21\n"),
        // 5: the ninth name of a side.
        (
            "events a . a a a a a a a a a -> a . % a",
            "rules refused 5 27\n",
        ),
        (
            "events a . a -> a a a a a a a a a . % a",
            "rules refused 5 32\n",
        ),
        // 6: an event named twice.
        ("events a b a . % a", "rules refused 6 11\n"),
        ("events a a . % a", "rules refused 6 9\n"),
        // The first token at which the text breaks decides.
        ("events a a . a. . % a", "rules refused 6 9\n"),
        ("events a . . a. . % a", "rules refused 4 11\n"),
    ] {
        expect(input, output);
    }
}

/// Refusal 5 of the 33rd symbol, of rule 65 and of the 15th other word. One fewer is read.
#[test]
fn too_many() {
    let symbols = |count: usize| -> String {
        let names: Vec<String> = (0..count).map(|number| format!("s{number:02}")).collect();
        format!("events {} .%s00", names.join(" "))
    };
    expect(symbols(32), "s00 quiet 1 0 s00\n");
    // Behind `events ` stand 32 names with a space each.
    expect(symbols(33), "rules refused 5 135\n");

    let rules = |count: usize| format!("events a .{}%a", " b -> a .".repeat(count));
    expect(rules(64), "a quiet 1 0 a\n");
    // Behind `events a .` stand 64 rules of nine bytes, and a space.
    expect(rules(65), "rules refused 5 587\n");

    let words = |count: usize| -> String {
        let rules: Vec<String> = (0..count)
            .map(|number| format!(" b -> #w{number:02} ."))
            .collect();
        format!("events a .{}%a", rules.concat())
    };
    expect(words(14), "a quiet 1 0 a\n");
    // Behind `events a .` stand 14 rules of twelve bytes, and ` b -> `.
    expect(words(15), "rules refused 5 184\n");
}

#[test]
fn no_percent_sign() {
    expect("events a .", "");
    expect("events a .\n", "");
    expect(SAMPLE_RULES, "");
    expect(format!("{SAMPLE_RULES} lock -> #fail ."), "");
    // Names that follow the rules without a `%` are a part of the text.
    expect("events a . a a", "rules refused 4 14\n");
    expect("lock take", "rules refused 4 0\n");
}

#[test]
fn no_names() {
    for end in ["%", " %", "% ", "%\n", "%\r\n\t  \n"] {
        expect(format!("events a .{end}"), "");
        expect(format!("{}{end}", SAMPLE_RULES.trim_end()), "");
    }
}

#[test]
fn empty_input() {
    expect("", "rules refused 4 0\n");
    expect(" ", "rules refused 4 1\n");
    expect(" \t\r\n", "rules refused 4 4\n");
}

/// The first `%` cuts, wherever it stands.
#[test]
fn the_cut() {
    // At the very beginning.
    expect("%", "rules refused 4 0\n");
    expect("%%", "rules refused 4 0\n");
    expect("%events a .", "rules refused 4 0\n");
    expect("% events a . % a", "rules refused 4 0\n");
    expect(" % events a . % a", "rules refused 4 1\n");
    // Right behind the `.`, and right before a name.
    expect("events a .%a", "a quiet 1 0 a\n");
    expect("events a .%a\n", "a quiet 1 0 a\n");
    // Inside a word.
    expect("even%ts a . % a", "rules refused 4 0\n");
    expect("events% a . % a", "rules refused 4 6\n");
    expect("events aa%aa . % aa", "rules refused 4 9\n");
    expect("events a . a -> a% . a", "rules refused 4 17\n");
    expect("events a . a -%> a . a", "rules refused 3 13\n");
    expect("events a . a ->% a . a", "rules refused 4 15\n");
    expect("events a . a -> #x%y . a", "rules refused 4 18\n");
    // Later ones are bytes of names.
    expect(
        "events a .%a % %% a%a %a a% a",
        "a quiet 1 0 a\n\
         % refused 12\n\
         %% refused 12\n\
         a%a refused 12\n\
         %a refused 12\n\
         a% refused 12\n\
         a quiet 1 0 a,a\n",
    );
    expect("events a .%%a", "%a refused 12\n");
    expect("events a .%%%%", "%%% refused 12\n");
    // What would be refused as a rule is a name behind the cut.
    expect(
        "events a .% a -> a . a",
        "a quiet 1 0 a\n\
         -> refused 12\n\
         a quiet 1 0 a,a\n\
         . refused 12\n\
         a quiet 1 0 a,a,a\n",
    );
}

#[test]
fn unknown_names() {
    expect(
        "events a . a -> b . % x b A aa a_ _a 9 # . -> .. #fail #a #epsilon events fail succeed , - \
         a a, a,a refused",
        "x refused 12\n\
         b refused 12\n\
         A refused 12\n\
         aa refused 12\n\
         a_ refused 12\n\
         _a refused 12\n\
         9 refused 12\n\
         # refused 12\n\
         . refused 12\n\
         -> refused 12\n\
         .. refused 12\n\
         #fail refused 12\n\
         #a refused 12\n\
         #epsilon refused 12\n\
         events refused 12\n\
         fail refused 12\n\
         succeed refused 12\n\
         , refused 12\n\
         - refused 12\n\
         a quiet 2 1 b\n\
         a, refused 12\n\
         a,a refused 12\n\
         refused refused 12\n",
    );
    // Only unknown names.
    expect("events a .%b", "b refused 12\n");
}

/// A symbol that no event is called by: it is held, and yet refused.
#[test]
fn symbols_that_are_no_events() {
    expect(
        "events a . a -> b c . c b -> d . % b a b c d a c",
        "b refused 12\n\
         a quiet 3 1 b,c\n\
         b refused 12\n\
         c refused 12\n\
         d refused 12\n\
         a quiet 4 2 b,d,c\n\
         c refused 12\n",
    );
}

/// No word is reserved.
#[test]
fn names_that_mean_something_elsewhere() {
    expect(
        "events events fail . events fail -> #epsilon . fail -> epsilon . % events fail fail",
        "events quiet 1 0 events\nfail quiet 1 1 -\nfail quiet 2 1 epsilon\n",
    );
    expect(
        "events fail quiet . fail -> #quiet . % quiet fail",
        "quiet quiet 1 0 quiet\nfail #quiet 1 1 quiet\n",
    );
    expect(
        "events refused full spent . % refused full spent",
        "refused quiet 1 0 refused\n\
         full quiet 1 0 refused,full\n\
         spent quiet 1 0 refused,full,spent\n",
    );
    expect(
        "events input . input -> too long . % input",
        "input quiet 3 1 too,long\n",
    );
}

/// Names that agree with a known one in their first bytes, or in their last, or in their length's last
/// byte.
#[test]
fn names_of_every_length() {
    let known = long(7);
    assert_eq!(known.len(), 24);
    let rules = format!("events a {known} .%");
    expect(
        format!("{rules}{known}"),
        format!("{known} quiet 1 0 {known}\n"),
    );
    for other in [
        known[..23].to_string(),
        known[1..].to_string(),
        format!("{known}0"),
        format!("{known}{}", "0".repeat(8)),
        format!("{known}{known}"),
        format!("{known}\0"),
        format!("{known}{}", "\0".repeat(256)),
        format!("{known}{}", "n".repeat(256)),
        known.to_uppercase(),
    ] {
        expect(
            format!("{rules}{other} {known} {other}"),
            format!("{other} refused 12\n{known} quiet 1 0 {known}\n{other} refused 12\n"),
        );
    }
    for length in (2..=60).chain([
        127, 128, 129, 255, 256, 257, 258, 280, 281, 300, 511, 512, 513, 1_024, 1_025, 4_097,
        16_384, 16_385, 20_000,
    ]) {
        let other = "a".repeat(length);
        expect(
            format!("{rules}a {other} a"),
            format!("a quiet 1 0 a\n{other} refused 12\na quiet 1 0 a,a\n"),
        );
    }
    // The longest: the rest of the longest input.
    let other = "a".repeat(20_480 - 11);
    expect(
        format!("events a .%{other}"),
        format!("{other} refused 12\n"),
    );
}

/// Every byte as a name, and behind and before a known name.
#[test]
fn names_of_every_byte() {
    let mut input = b"events Q .%".to_vec();
    let mut output = Vec::new();
    for byte in 0..=255 {
        if b" \t\r\n".contains(&byte) {
            continue;
        }
        for name in [vec![byte], vec![b'Q', byte], vec![byte, b'Q']] {
            input.extend([&name[..], b" "].concat());
            output.extend(&name);
            output.extend(match &name[..] {
                b"Q" => &b" quiet 1 0 Q\n"[..],
                _ => b" refused 12\n",
            });
        }
    }
    expect(&input, &output);
    expect(
        b"events a .%\xff\x80\x00\x7f \x00 a\x00 \x00a \xc3\xa9 a\xa0a \x85 a",
        b"\xff\x80\x00\x7f refused 12\n\
          \x00 refused 12\n\
          a\x00 refused 12\n\
          \x00a refused 12\n\
          \xc3\xa9 refused 12\n\
          a\xa0a refused 12\n\
          \x85 refused 12\n\
          a quiet 1 0 a\n",
    );
}

/// The worked rule sets of document 01 that need no fuel but 1,000.
#[test]
fn worked_rule_sets() {
    // C3
    expect(
        format!("{SAMPLE_RULES}% lock take"),
        "lock quiet 1 0 lock\ntake quiet 2 1 held\n",
    );
    // C4
    expect(
        "events d a b . a b -> c . d c -> #fail . % d a b",
        "d quiet 1 0 d\na quiet 1 0 d,a\nb #fail 2 2 -\n",
    );
    // C5
    expect(
        "events b a c . b a a c -> #fail . a a -> #epsilon . % b a a c",
        "b quiet 1 0 b\na quiet 1 0 b,a\na quiet 1 1 b\nc quiet 1 0 b,c\n",
    );
    // C8
    expect(
        "events a . a -> #fail . a -> #succeed . % a",
        "a #fail 1 1 -\n",
    );
    // C9
    expect(
        "events a . a -> #fail . % a a",
        "a #fail 1 1 -\na refused 14\n",
    );
    // The longest left side, though its rule is the last.
    expect(
        "events a b . b -> #late . a b -> #succeed . % a b",
        "a quiet 1 0 a\nb #succeed 1 1 -\n",
    );
    // No rules.
    expect(
        "events a b . % b b a",
        "b quiet 1 0 b\nb quiet 1 0 b,b\na quiet 1 0 b,b,a\n",
    );
}

/// Rules for the start of the string.
#[test]
fn marks() {
    let rules =
        "events lock take free . lock take -> held . held free -> #epsilon . ^ take -> #fail . ";
    expect(format!("{rules}% lock take free take"), SAMPLE_LINES);
    expect(
        format!("{rules}% free take lock take free take"),
        "free quiet 1 0 free\n\
         take quiet 1 0 free,take\n\
         lock quiet 1 0 free,take,lock\n\
         take quiet 2 1 free,take,held\n\
         free quiet 1 1 free,take\n\
         take quiet 1 0 free,take,take\n",
    );
    expect(
        "events lock take free . ^ take -> #fail . % take take",
        "take #fail 1 1 -\ntake refused 14\n",
    );
    // The sample as it is reissued, under the choice of what begins first.
    expect(
        "events lock take free . lock take -> held . held free -> #epsilon . ^ take -> #fail . \
         held take -> #fail . % lock take free take",
        SAMPLE_LINES,
    );
    // A string for the start, and none.
    expect(
        "events a b . ^ a -> b b . ^ b b -> #epsilon . % b a a b b a",
        "b quiet 1 0 b\n\
         a quiet 1 0 b,a\n\
         a quiet 1 0 b,a,a\n\
         b quiet 1 0 b,a,a,b\n\
         b quiet 1 0 b,a,a,b,b\n\
         a quiet 1 0 b,a,a,b,b,a\n",
    );
    expect(
        "events a b . ^ a -> b b . ^ b b -> #epsilon . % a a b b",
        "a quiet 3 2 -\na quiet 3 2 -\nb quiet 1 0 b\nb quiet 1 1 -\n",
    );
    // Marked before unmarked on the same span, whatever their numbers.
    for rules in [
        "a -> #late . ^ a -> #early . ^ a -> #never .",
        "^ a -> #early . a -> #late . ^ a -> #never .",
        "^ a -> #early . ^ a -> #never . a -> #late .",
    ] {
        expect(format!("events a b . {rules} % a"), "a #early 1 1 -\n");
        expect(
            format!("events a b . {rules} % b a"),
            "b quiet 1 0 b\na #late 1 1 b\n",
        );
    }
    // The rest beside a verdict of the start; behind another symbol there is none.
    let rules = "events a b . a -> c d b . ^ c -> #stop .";
    expect(format!("{rules} % a b"), "a #stop 2 2 d,b\nb refused 14\n");
    expect(
        format!("{rules} % b a"),
        "b quiet 1 0 b\na quiet 4 1 b,c,d,b\n",
    );
}

/// Texts that break at a `^` or behind one.
#[test]
fn refused_marks() {
    for (input, output) in [
        ("^ events a . % a", "rules refused 4 0\n"),
        ("events ^ a . % a", "rules refused 4 7\n"),
        ("events a ^ . % a", "rules refused 4 9\n"),
        ("events a . ^a -> a . % a", "rules refused 3 11\n"),
        ("events a . ^ ^ a -> a . % a", "rules refused 4 13\n"),
        ("events a . ^ -> a . % a", "rules refused 4 13\n"),
        ("events a . ^ . % a", "rules refused 4 13\n"),
        ("events a . ^ #x . % a", "rules refused 4 13\n"),
        ("events a . a ^ -> a . % a", "rules refused 4 13\n"),
        ("events a . a -> ^ a . % a", "rules refused 4 16\n"),
        ("events a . a -> a ^ . % a", "rules refused 4 18\n"),
        // The `%` ends the text behind a `^`.
        ("events a . ^ % a", "rules refused 4 13\n"),
        ("events a . ^% a -> a .", "rules refused 4 12\n"),
        ("events a . ^ a -> a . ^%", "rules refused 4 23\n"),
        (
            "events a . ^ a a a a a a a a a -> a . % a",
            "rules refused 5 29\n",
        ),
    ] {
        expect(input, output);
    }
    let rules = "events a .".to_string() + &" ^ b -> a .".repeat(64);
    expect(format!("{rules}%a"), "a quiet 1 0 a\n");
    // Behind `events a .` stand 64 rules of eleven bytes, and ` ^ `.
    expect(format!("{rules} ^ b -> a .%a"), "rules refused 5 717\n");
    expect(format!("{rules} ^ -> a .%a"), "rules refused 4 717\n");
    expect(format!("{rules} ^%a"), "rules refused 4 716\n");
}

/// A `^` behind the `%` is a name that no symbol has.
#[test]
fn marks_behind_the_percent_sign() {
    for rules in [
        "events a .",
        "events a . ^ a -> b .",
        "events a . ^ a -> #fail .",
    ] {
        expect(
            format!("{rules} %^ ^ ^a a^ ^^ ^%"),
            "^ refused 12\n^ refused 12\n^a refused 12\na^ refused 12\n^^ refused 12\n^% refused 12\n",
        );
    }
    expect(
        "events a . ^ a -> #fail . % a ^ a ^",
        "a #fail 1 1 -\n^ refused 12\na refused 14\n^ refused 12\n",
    );
}

#[test]
fn verdicts() {
    expect(
        "events a b late . a -> #late . % b a a b x #late late",
        "b quiet 1 0 b\n\
         a #late 1 1 b\n\
         a refused 14\n\
         b refused 14\n\
         x refused 12\n\
         #late refused 12\n\
         late refused 14\n",
    );
    // What waits stays beside a verdict, behind what is settled.
    expect(
        "events a x . a -> b c d e . b c -> #stop . % x a",
        "x quiet 1 0 x\na #stop 3 2 x,d,e\n",
    );
    // 12 before 14, for an unknown name and for a symbol that is no event.
    expect(
        "events a . a b -> a . a -> #succeed . % a b c a",
        "a #succeed 1 1 -\nb refused 12\nc refused 12\na refused 14\n",
    );
    // A word called as a symbol is, and one called as a verdict is but for a capital letter.
    expect("events a . a -> #a . % a", "a #a 1 1 -\n");
    expect("events a . a -> #Fail . % a", "a #Fail 1 1 -\n");
    // Names of 24 bytes.
    let (name, word) = (long(0), long(1));
    expect(
        format!("events {name} . {name} -> #{word} . % {name} {name}"),
        format!("{name} #{word} 1 1 -\n{name} refused 14\n"),
    );
}

/// Each of 16 verdicts, by an event of its own.
#[test]
fn every_verdict() {
    let words: Vec<String> = ["fail".to_string(), "succeed".to_string()]
        .into_iter()
        .chain((2..16).map(|number| format!("word{number}")))
        .collect();
    let mut rules = "events".to_string();
    for event in 0..16 {
        rules += &format!(" e{event}");
    }
    rules += " .";
    // The last are named first, so that no verdict is called by its event's number.
    for event in (0..16).rev() {
        rules += &format!(" e{event} -> #{} .", words[event]);
    }
    for (event, word) in words.iter().enumerate() {
        expect(
            format!("{rules} % e{event} e0"),
            format!("e{event} #{word} 1 1 -\ne0 refused 14\n"),
        );
    }
}

#[test]
fn spent() {
    expect(
        "events a . a -> a . % a a x a",
        "a spent 1000 1000 a\n\
         a spent 1000 1000 a,a\n\
         x refused 12\n\
         a spent 1000 1000 a,a,a\n",
    );
    // Every second step settles a symbol. The fifth offer has room for 43 more of them.
    let held = |settled: usize, waiting: usize| times(settled, "b") + "," + &times(waiting, "a");
    expect(
        "events a . a -> b a . % a a a a a a x",
        format!(
            "a spent 1000 500 {}\n\
             a spent 1000 500 {}\n\
             a spent 1000 500 {}\n\
             a spent 1000 500 {}\n\
             a full 86 43 {}\n\
             a refused 15\n\
             x refused 12\n",
            held(500, 1),
            held(1_000, 2),
            held(1_500, 3),
            held(2_000, 4),
            held(2_043, 5),
        ),
    );
}

#[test]
fn full() {
    expect(
        "events a . a -> a a . b -> b . % a a a a b x a",
        format!(
            "a spent 1000 1000 {}\n\
             a spent 1000 1000 {}\n\
             a full 45 45 {}\n\
             a refused 15\n\
             b refused 12\n\
             x refused 12\n\
             a refused 15\n",
            times(1_001, "a"),
            times(2_002, "a"),
            times(2_048, "a"),
        ),
    );
    // Each step adds seven. 292 of them fit, and then there is room for three more events.
    expect(
        "events a . a -> a a a a a a a a . % a a a a a",
        format!(
            "a full 292 292 {}\n\
             a full 0 0 {}\n\
             a full 0 0 {}\n\
             a full 0 0 {}\n\
             a refused 15\n",
            times(2_045, "a"),
            times(2_046, "a"),
            times(2_047, "a"),
            times(2_048, "a"),
        ),
    );
    // What waits behind a symbol whose step does not fit is not reached.
    expect(
        "events a b . a -> a a a a a a a a . b -> #fail . % a b b b b",
        format!(
            "a full 292 292 {a}\n\
             b full 0 0 {a},b\n\
             b full 0 0 {a},b,b\n\
             b full 0 0 {a},b,b,b\n\
             b refused 15\n",
            a = times(2_045, "a"),
        ),
    );
}

/// What is decided where the fuel ends.
#[test]
fn the_last_unit_of_fuel() {
    // Steps of one symbol: d 1, c 9, b 73, p 585, e 49. So a takes 585 + 5 * 73 + 49 and one itself, which
    // is 1,000; 875 of them settle a d. The v that ends k is a rewrite in the place of a d that settles.
    let rules = "events a f k l z . \
        c -> d d d d d d d d . b -> c c c c c c c c . p -> b b b b b b b b . \
        e -> c c c c c d d d . a -> p b b b b b e . f -> a . \
        g -> c c c c c d d v . k -> p b b b b b g . l -> k . v -> #end .";
    let (d874, d875) = (times(874, "d"), times(875, "d"));
    expect(
        format!("{rules} % a z"),
        format!("a quiet 1000 125 {d875}\nz quiet 1 0 {d875},z\n"),
    );
    expect(
        format!("{rules} % f z"),
        format!("f spent 1000 126 {d875}\nz quiet 2 0 {d875},z\n"),
    );
    expect(
        format!("{rules} % k z"),
        format!("k #end 1000 126 {d874}\nz refused 14\n"),
    );
    expect(
        format!("{rules} % l z z"),
        format!("l spent 1000 126 {d874},v\nz #end 1 1 {d874},z\nz refused 14\n"),
    );
    // 1,000 steps fill the room, and the next would not fit.
    let filled = |count: usize| format!("events x a . a -> a a .%{}a a a", "x ".repeat(count));
    let before = |count: usize| -> String {
        let lines = (1..=count).map(|held| format!("x quiet 1 0 {}\n", times(held, "x")));
        lines.collect()
    };
    for (count, first, second) in [
        (46, "spent 1000 1000", "spent 1000 1000"),
        (47, "spent 1000 1000", "full 999 999"),
    ] {
        let x = times(count, "x");
        expect(
            filled(count),
            format!(
                "{}a {first} {x},{}\na {second} {x},{}\na refused 15\n",
                before(count),
                times(1_001, "a"),
                times(2_048 - count, "a"),
            ),
        );
    }
}

/// Inputs of 20,480 bytes and of one more.
#[test]
fn the_longest_input() {
    let padded = |begin: &str, end: &str, length: usize| -> String {
        let between = length - begin.len() - end.len();
        format!("{begin}{}{end}", " ".repeat(between))
    };
    for (begin, end, output) in [
        ("events a .%", "a", "a quiet 1 0 a\n"),
        ("events a .%a", "a", "a quiet 1 0 a\na quiet 1 0 a,a\n"),
        ("events a .%a", "%", "a quiet 1 0 a\n% refused 12\n"),
        ("events a .%a", "", "a quiet 1 0 a\n"),
        ("events a .%", "", ""),
        ("event a .%", "", "rules refused 4 0\n"),
        // A rule part that is too long.
        ("events a .", "%a", "rules refused 1 0\n"),
        ("events a .", "%", "rules refused 1 0\n"),
        ("events a .", "", "rules refused 1 0\n"),
        ("", "", "rules refused 1 0\n"),
    ] {
        expect(padded(begin, end, 20_479), output);
        expect(padded(begin, end, 20_480), output);
        expect(padded(begin, end, 20_481), "input too long\n");
        expect(padded(begin, end, 20_482), "input too long\n");
        expect(padded(begin, end, 70_000), "input too long\n");
    }
    // Of the last name no byte is lost.
    let name = "x".repeat(10_000);
    let input = padded("events a .%a", &name, 20_480);
    expect(&input, format!("a quiet 1 0 a\n{name} refused 12\n"));
    for more in ["x", " ", "\n", "%", "\0"] {
        expect(format!("{input}{more}"), "input too long\n");
    }
    for byte in [b'%', b'\0', b'\n', 255] {
        let output = match byte {
            b'%' => "rules refused 4 0\n",
            _ => "rules refused 1 0\n",
        };
        expect(vec![byte; 20_480], output);
        expect(vec![byte; 20_481], "input too long\n");
    }
}

/// Rule parts of 16,384 bytes and of one more.
#[test]
fn the_longest_rule_part() {
    for (begin, end, output) in [
        ("events a .", "%a", "a quiet 1 0 a\n"),
        ("events a .", "%", ""),
        ("events a .", "", ""),
        (
            "events a . a -> b",
            " .%a a",
            "a quiet 2 1 b\na quiet 2 1 b,b\n",
        ),
        ("events a . a -> ", "bcd", "rules refused 4 16384\n"),
        ("events a . a -> b .", "->%a", "rules refused 4 16382\n"),
        ("events a . a -> b .", "?", "rules refused 3 16383\n"),
        ("events a", "%a", "rules refused 4 16384\n"),
        ("", "", "rules refused 4 16384\n"),
        ("", "%a", "rules refused 4 16384\n"),
    ] {
        let part = |length: usize| -> String {
            let inside = end.find('%').unwrap_or(end.len());
            let between = length - begin.len() - inside;
            format!("{begin}{}{end}", "\n".repeat(between))
        };
        expect(part(16_384), output);
        expect(part(16_385), "rules refused 1 0\n");
        expect(part(16_500), "rules refused 1 0\n");
    }
    // Whatever the text says.
    expect("?".repeat(16_385), "rules refused 1 0\n");
    expect("?".repeat(16_384), "rules refused 3 0\n");
    expect(
        "?".repeat(16_384) + "%" + &"?".repeat(4_095),
        "rules refused 3 0\n",
    );
    expect(
        "?".repeat(16_384) + "%" + &"?".repeat(4_096),
        "input too long\n",
    );
    // The longest rule part with the longest rest.
    let mut input = "events a .".to_string();
    input += &" ".repeat(16_384 - input.len());
    input += "%";
    input += &" ".repeat(20_480 - input.len() - 1);
    input += "a";
    expect(input, "a quiet 1 0 a\n");
}

/// Rules by which 1-byte events put in symbols with names of 24 bytes, and the events that put in 2,047.
struct Filled {
    rules: String,
    events: String,
    lines: String,
    /// The 2,047 names.
    string: String,
}

/// The event `b` becomes eight symbols, `c` seven. More events stand in `events`, their rules in `rules`.
fn filled(events: &str, rules: &str) -> Filled {
    let name = long(0);
    let right = |count: usize| vec![&name[..]; count].join(" ");
    let mut lines = String::new();
    for offers in 1..=255 {
        lines += &format!("b quiet 9 1 {}\n", times(8 * offers, &name));
    }
    let string = times(2_047, &name);
    lines += &format!("c quiet 8 1 {string}\n");
    Filled {
        rules: format!(
            "events b c {events} . b -> {} . c -> {} . {rules} %",
            right(8),
            right(7)
        ),
        events: "b ".repeat(255) + "c",
        lines,
        string,
    }
}

/// A string of 2,048 names of 24 bytes behind the longest name, the most steps and the most rewrites.
#[test]
fn the_longest_line() {
    let name = long(1);
    let filled = filled(&name, &format!("{name} -> {name} ."));
    let last = format!("{name} spent 1000 1000 {},{name}\n", filled.string);
    assert_eq!(last.len(), 51_241);
    expect(
        format!("{}{} {name} {name} b x", filled.rules, filled.events),
        format!(
            "{}{last}{name} refused 15\nb refused 15\nx refused 12\n",
            filled.lines
        ),
    );
}

/// A string of 2,047 names of 24 bytes behind the longest name and the longest verdict.
#[test]
fn the_longest_line_with_a_verdict() {
    let (name, word) = (long(1), long(2));
    let filled = filled(&name, &format!("{name} -> #{word} ."));
    expect(
        format!("{}{} {name} {name} b x", filled.rules, filled.events),
        format!(
            "{}{name} #{word} 1 1 {}\n{name} refused 14\nb refused 14\nx refused 12\n",
            filled.lines, filled.string
        ),
    );
}

/// The shortest rules, and then one event or unknown name in every second byte.
#[test]
fn the_most_lines() {
    let rules = "events a .%";
    let events = vec!["a"; 10_235].join(" ");
    let mut lines = String::new();
    for held in 1..=2_048 {
        lines += &format!("a quiet 1 0 {}\n", times(held, "a"));
    }
    lines += &"a refused 15\n".repeat(10_235 - 2_048);
    let input = format!("{rules}{events}");
    assert_eq!(input.len(), 20_480);
    expect(&input, lines);
    expect(format!("{input} "), "input too long\n");

    let names = vec!["b"; 10_235].join("\n");
    expect(format!("{rules}{names}"), "b refused 12\n".repeat(10_235));
}

/// The longest strings in as many lines as there is room for: half a gigabyte, which is compared as it
/// comes.
#[test]
fn the_most_long_lines() {
    let filled = filled("d", "d -> #epsilon .");
    let mut input = format!("{}{}", filled.rules, filled.events);
    let offers = (20_480 - input.len()) / 2;
    input += &" d".repeat(offers);
    let mut child = Command::new(program::path())
        .stdin(Stdio::piped())
        .stdout(Stdio::piped())
        .stderr(Stdio::piped())
        .spawn()
        .expect("the program");
    let mut stdin = child.stdin.take().expect("a pipe");
    let writer = thread::spawn(move || stdin.write_all(input.as_bytes()).expect("it is read"));
    let mut stdout = BufReader::with_capacity(1 << 16, child.stdout.take().expect("a pipe"));
    let mut line = Vec::new();
    let mut expect_line = |expected: &[u8], number: usize| {
        line.clear();
        stdout.read_until(b'\n', &mut line).expect("a line");
        assert!(line == expected, "line {number}");
    };
    for (number, expected) in filled.lines.split_inclusive('\n').enumerate() {
        expect_line(expected.as_bytes(), number);
    }
    let expected = format!("d quiet 1 1 {}\n", filled.string);
    for number in 0..offers {
        expect_line(expected.as_bytes(), 256 + number);
    }
    expect_line(b"", 256 + offers);
    writer.join().expect("the writer ends");
    let end = child.wait_with_output().expect("it ends");
    assert!(end.status.success(), "{}", end.status);
    assert_eq!(end.stderr, b"", "standard error");
}
