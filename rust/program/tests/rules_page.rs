//! `docs/RULES.md`: every output and every list of rewrites in it.

mod pages;

use std::path::PathBuf;

use pages::{blocks, expect_printed, read, root, shown, Shown};
use reference::monitor::{Answer, State};
use reference::reader::{read_rules, Reading, IMAGE_AREA, NAME_AREA};
use reference::rewriter::{first_occurrence, Rewriter};
use reference::{Right, Symbol};

/// The page has at least as many inputs.
const INPUTS: usize = 31;
/// The page has at least as many worked days, each with its rewrites.
const DAYS: usize = 6;

fn page() -> PathBuf {
    root().join("docs/RULES.md")
}

fn inputs() -> Vec<Shown> {
    shown(&blocks(&read(&page())))
}

/// A name of a text.
fn name(bytes: &[u8]) -> &str {
    std::str::from_utf8(bytes).expect("ASCII")
}

/// The names of these symbols.
fn names<'a>(reading: &'a Reading, string: &[Symbol]) -> Vec<&'a str> {
    string
        .iter()
        .map(|&symbol| name(&reading.symbols[usize::from(symbol)]))
        .collect()
}

/// The string with the symbols from `begin` to before `end` in brackets.
fn bracketed(reading: &Reading, string: &[Symbol], begin: usize, end: usize) -> String {
    let bracket = format!("[{}]", names(reading, &string[begin..end]).join(" "));
    let mut parts = names(reading, &string[..begin]);
    parts.push(&bracket);
    parts.extend(names(reading, &string[end..]));
    parts.join(" ")
}

/// The rewriter's next rewrite as a line of `rewrites`, without the event; none if it rests.
fn rewrite(reading: &Reading, rewriter: &mut Rewriter) -> Option<String> {
    let found = first_occurrence(&reading.set, &rewriter.string)?;
    let before = bracketed(reading, &rewriter.string, found.begin, found.end);
    assert_eq!(rewriter.rewrite(&reading.set), Some(found.rule));
    let end = match &reading.set.rules[found.rule].right {
        Right::Symbols(right) => found.begin + right.len(),
        Right::Verdict(_) => found.begin,
    };
    let after = bracketed(reading, &rewriter.string, found.begin, end);
    let verdict = match rewriter.verdict {
        Some(verdict) => {
            let word = name(&reading.verdicts[usize::from(verdict)]);
            format!(", verdict #{word}")
        }
        None => String::new(),
    };
    Some(format!(
        "{before} => {after}, rule {}{verdict}",
        found.rule + 1
    ))
}

/// A day: its rewrites by the plain rewriter, and its output by the monitor. Both hold the same after each event.
fn day(input: &str) -> (String, String) {
    let (text, events) = input.split_once('%').expect("a `%`");
    let reading = read_rules(text.as_bytes(), IMAGE_AREA, NAME_AREA).expect("a good text");
    let mut rewriter = Rewriter::new(&[]);
    let mut monitor = State::default();
    let (mut rewrites, mut output) = (String::new(), String::new());
    for event in events.split_ascii_whitespace() {
        let symbol = reading.symbols[..reading.set.events.into()]
            .iter()
            .position(|name| name == event.as_bytes())
            .expect("a worked day has no unknown event") as Symbol;
        if monitor.verdict.is_some() {
            output += &format!("{event} refused 14\n");
            continue;
        }

        let mut count = 0;
        rewriter.string.push(symbol);
        while rewriter.verdict.is_none() {
            let Some(line) = rewrite(&reading, &mut rewriter) else {
                break;
            };
            rewrites += &format!("{event}: {line}\n");
            count += 1;
            assert!(count < 100, "a worked day ends");
        }

        monitor.waiting.push(symbol);
        let (answer, counts) = monitor.run(&reading.set, 1_000);
        assert_eq!(monitor.string(), rewriter.string, "{event}");
        assert_eq!(counts.rewrites, count, "{event}");
        let verdict = monitor.verdict.map(|verdict| verdict.number);
        assert_eq!(verdict, rewriter.verdict, "{event}");
        let answer = match answer {
            Answer::Quiet => "quiet".to_string(),
            Answer::Verdict(verdict) => {
                format!("#{}", name(&reading.verdicts[usize::from(verdict)]))
            }
            Answer::Spent | Answer::Full => panic!("a worked day ends"),
        };
        let string = match names(&reading, &monitor.string()) {
            names if names.is_empty() => "-".to_string(),
            names => names.join(","),
        };
        output += &format!("{event} {answer} {} {count} {string}\n", counts.steps);
    }
    (rewrites, output)
}

#[test]
fn watch_prints_each_output() {
    let inputs = inputs();
    assert!(inputs.len() >= INPUTS, "{} inputs", inputs.len());
    for shown in &inputs {
        expect_printed(&page(), shown);
    }
}

#[test]
fn each_day_is_the_plain_rewriters() {
    let headings = read(&page())
        .lines()
        .filter(|line| line.starts_with("### Day "))
        .count();
    let mut days = 0;
    for Shown {
        input,
        output,
        rewrites,
    } in inputs()
    {
        if let Some(rewrites) = rewrites {
            let expected = day(&input.text);
            assert_eq!(
                (rewrites.text, output.text),
                expected,
                "line {}",
                input.line
            );
            days += 1;
        }
    }
    assert_eq!(days, headings);
    assert!(days >= DAYS, "{days} days");
}

/// Every answer, every refusal of an event, and every refusal of a text that a short input can have.
#[test]
fn every_kind_of_line_is_shown() {
    let lines: Vec<String> = inputs()
        .into_iter()
        .flat_map(|shown| {
            let lines = shown.output.text.lines();
            lines.map(String::from).collect::<Vec<_>>()
        })
        .collect();
    for kind in [
        " quiet ",
        " spent ",
        " full ",
        " #fail ",
        " #succeed ",
        " #late ",
        " refused 12",
        " refused 14",
        " refused 15",
        "rules refused 3 ",
        "rules refused 4 ",
        "rules refused 5 ",
        "rules refused 6 ",
    ] {
        assert!(lines.iter().any(|line| line.contains(kind)), "{kind:?}");
    }
}
