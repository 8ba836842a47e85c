//! Rule texts made by the grammar, lists of tokens made without it, and rules that are read and then run.

mod common;

use common::texts::{read, read_into_all, Tally};
use reference::monitor::State;
use reference::random::{self, Habit, Random, Shape};
use reference::reader::{Reading, MISPLACED};
use reference::texts::{self, Naming, Spacing, Written};
use reference::{Right, RuleSet};
use std::collections::BTreeMap;
use watcher::{Monitor, Rules};

/// Expects what the writer says of its text, which the reference must say too.
#[track_caller]
fn expect_written(written: &Written) {
    assert_eq!(read(&written.text).as_ref(), Ok(&written.reading));
}

/// What the texts of a test had in them, and how often.
#[derive(Debug, Default)]
struct Seen {
    counts: BTreeMap<(&'static str, usize), usize>,
}

impl Seen {
    fn count(&mut self, what: &'static str, number: impl Into<usize>) {
        *self.counts.entry((what, number.into())).or_default() += 1;
    }

    fn add(&mut self, text: &[u8], reading: &Reading) {
        let set = &reading.set;
        self.count("symbols", set.symbols);
        self.count("events", set.events);
        self.count("verdicts", set.verdicts);
        self.count("rules", set.rules.len());
        for rule in &set.rules {
            self.count("left side", rule.left.len());
            self.count("mark", rule.marked);
            if rule.marked {
                self.count("marked left side", rule.left.len());
            }
            match &rule.right {
                Right::Symbols(right) => self.count("right side", right.len()),
                Right::Verdict(verdict) => self.count("verdict", *verdict),
            }
        }
        for name in &reading.symbols {
            self.count("name", name.len());
        }
        for word in &reading.verdicts[2..] {
            self.count("word", word.len());
        }
        for separator in *b" \t\r\n" {
            if text.contains(&separator) {
                self.count("separator", separator);
            }
        }
        self.count("first byte", text[0]);
        self.count("last byte", text[text.len() - 1]);
    }

    /// Expects each of these numbers at least so often.
    #[track_caller]
    fn expect(&self, what: &'static str, numbers: impl IntoIterator<Item = usize>, least: usize) {
        for number in numbers {
            let seen = self.counts.get(&(what, number)).copied();
            assert!(seen >= Some(least), "{what} {number}: {seen:?}");
        }
    }
}

/// A rule set that fills a limit of each kind once in a while, without marks or with.
fn rule_set(random: &mut Random, round: usize) -> RuleSet {
    let set = rule_set_without_marks(random, round);
    if random.once_in(2) {
        random::with_marks(random, set)
    } else {
        set
    }
}

fn rule_set_without_marks(random: &mut Random, round: usize) -> RuleSet {
    match round % 4 {
        0 => Shape::ALL[random.below(Shape::ALL.len())].rule_set(random),
        1 => Habit::ALL[random.below(Habit::ALL.len())].rule_set(random),
        2 => {
            let symbols = random.within(1, 32) as u8;
            let lefts = (0..random.within(0, 64))
                .map(|_| {
                    let length = random.within(1, 8);
                    random.string(length, symbols)
                })
                .collect();
            random.with_left_sides(symbols, lefts)
        }
        _ => {
            let symbols = random.within(24, 32) as u8;
            let mut set = random::full(random, symbols, symbols);
            if random.once_in(4) {
                // Every verdict that there may be.
                set.verdicts = 16;
                for verdict in 0..16 {
                    let rule = 4 * usize::from(verdict) + random.below(4);
                    set.rules[rule].right = Right::Verdict(verdict);
                }
            }
            set
        }
    }
}

#[test]
fn written_texts() {
    let mut random = Random::new(2_001);
    let mut seen = Seen::default();
    for round in 0..1_200 {
        let set = rule_set(&mut random, round);
        for naming in Naming::ALL {
            let spacing = Spacing::ALL[random.below(Spacing::ALL.len())];
            let written = texts::write(&mut random, &set, naming, spacing);
            if written.text.len() > watcher::MAX_TEXT_BYTES {
                let refused = read(&written.text).unwrap_err();
                assert_eq!((refused.refusal, refused.place), (1, 0));
                continue;
            }
            expect_written(&written);
            seen.add(&written.text, &written.reading);
        }
    }
    // The texts had everything that a text may have, and as much of it.
    let separators = b" \t\r\n".map(usize::from);
    seen.expect("symbols", 1..=32, 10);
    seen.expect("events", 1..=32, 2);
    seen.expect("verdicts", 2..=16, 3);
    seen.expect("rules", 0..=64, 5);
    seen.expect("rules", [64], 300);
    seen.expect("left side", 1..=8, 500);
    seen.expect("marked left side", 1..=8, 500);
    seen.expect("mark", [0, 1], 5_000);
    seen.expect("right side", 0..=8, 500);
    seen.expect("verdict", 0..=15, 200);
    seen.expect("name", 1..=24, 300);
    seen.expect("word", 1..=24, 100);
    seen.expect("separator", separators, 3_000);
    seen.expect("first byte", separators, 100);
    seen.expect("last byte", separators, 100);
}

/// Areas that are longer or too short, for texts of every shape.
#[test]
fn written_texts_into_other_areas() {
    let mut random = Random::new(2_002);
    for round in 0..400 {
        let set = rule_set(&mut random, round);
        let written = texts::write(&mut random, &set, Naming::Short, Spacing::One);
        assert_eq!(read_into_all(&written.text).as_ref(), Ok(&written.reading));
    }
}

/// The longest image there is, of texts with short names, and with names as long as the text allows.
#[test]
fn longest_image() {
    let mut random = Random::new(2_003);
    for (set, length) in [
        (random::largest(), 1),
        (random::largest(), 2),
        (random::largest(), 14),
        (random::largest_with_marks(), 1),
        (random::largest_with_marks(), 14),
    ] {
        let mut symbols = Vec::new();
        while symbols.len() < 32 {
            let letters = b"abcdefghijklmnopqrstuvwxyzABCDEFGHIJKLMNOPQRSTUVWXYZ";
            let mut name = vec![b'_'; length];
            name[length - 1] = letters[random.below(letters.len())];
            name[0] = letters[random.below(letters.len())];
            if !symbols.contains(&name) {
                symbols.push(name);
            }
        }
        let tokens = texts::tokens(&set, &symbols, &[]);
        let text = Spacing::Space.join(&mut random, &tokens);
        let reading = read_into_all(&text).unwrap();
        assert_eq!(reading.image().len(), watcher::MAX_IMAGE_BYTES);
        assert_eq!(reading.symbols, symbols);
        // The symbols of this rule set are numbered as they appear, since all are events.
        assert_eq!(reading.image()[3..], reference::encode(&set)[3..]);
        assert_eq!(reading.set.has_mark(), set.has_mark());
        assert!(length < 14 || text.len() > 16_000, "{}", text.len());
    }
}

/// The tokens of the lists below: what the grammar names, two names, a word.
const TOKENS: [&str; 9] = [
    "events", "a", "b", "^", "#fail", "#x", "#epsilon", "->", ".",
];

/// Every list of up to five tokens, and every list of six that begins with `events`.
#[test]
fn all_small_lists() {
    let mut tally = Tally::default();
    let mut count = 0;
    for length in 0..=6 {
        for number in 0..9usize.pow(length) {
            let list: Vec<&str> = (0..length)
                .map(|place| TOKENS[number / 9usize.pow(place) % 9])
                .collect();
            if length == 6 && list[0] != "events" {
                continue;
            }
            tally.add(&read(list.join(" ").as_bytes()));
            count += 1;
        }
    }
    assert_eq!(count, 66_430 + 59_049);
    // `events`, one to three different names out of three, `.`. With a rule there would be seven tokens.
    tally.expect(3 + 6 + 6, [0, 100_000, 0, 1_000]);
}

/// Every list that goes on behind `events a .`, up to seven tokens, as long as it has not broken; each
/// list that has is tried with one token more.
#[test]
fn all_lists_of_rules() {
    let mut tally = Tally::default();
    let mut lists = vec!["events a .".to_string()];
    for length in 0..=7 {
        let mut longer = Vec::new();
        for list in lists {
            let result = read(list.as_bytes());
            tally.add(&result);
            let broken = match &result {
                Ok(_) => false,
                Err(refused) => refused.place < list.len(),
            };
            for token in TOKENS {
                let list = format!("{list} {token}");
                if broken {
                    assert_eq!(read(list.as_bytes()), result);
                } else if length < 7 {
                    longer.push(list);
                }
            }
        }
        lists = longer;
    }
    tally.expect(1_000, [0, 10_000, 0, 0]);
}

/// Up to ten names where events or a side begin, and each token behind them.
#[test]
fn all_tokens_behind_sides_of_every_length() {
    let mut tally = Tally::default();
    for length in 0..=10 {
        let names = "a ".repeat(length);
        for token in TOKENS {
            for end in ["", " .", " -> a ."] {
                for begin in ["events", "events a .", "events a . a ->"] {
                    let text = format!("{begin} {names}{token}{end}");
                    tally.add(&read(text.as_bytes()));
                }
            }
        }
    }
    tally.expect(50, [0, 200, 30, 100]);
}

/// Runs that stand where tokens should: tokens of all kinds, and runs that are none.
const RUNS: [&str; 28] = [
    "events", "a", "b", "c", "events", "a", "b", "->", ".", "->", ".", ".", "#x", "#y", "#fail",
    "#epsilon", "#succeed", "a.", "->.", "#", "9", "_a", "Events", "#a", "^", "^", "^", "^a",
];

/// Lists of random tokens behind a good beginning.
#[test]
fn random_lists() {
    let mut random = Random::new(2_004);
    let mut tally = Tally::default();
    for round in 0..100_000 {
        let mut list: Vec<&str> = match round % 4 {
            0 => vec![],
            1 => vec!["events"],
            2 => vec!["events", "a", "b", "."],
            _ if random.once_in(2) => vec!["events", "a", "b", ".", "^", "a"],
            _ => vec!["events", "a", "b", ".", "a", "b"],
        };
        for _ in 0..random.within(0, 14) {
            list.push(RUNS[random.below(RUNS.len())]);
        }
        let spacing = Spacing::ALL[random.below(Spacing::ALL.len())];
        tally.add(&read(&spacing.join(&mut random, &list)));
    }
    tally.expect(1_000, [20_000, 50_000, 1, 500]);
}

/// Good lists of tokens in which one or two were dropped, doubled, replaced or exchanged.
#[test]
fn lists_with_tokens_changed() {
    let mut random = Random::new(2_005);
    let mut tally = Tally::default();
    for round in 0..15_000 {
        let set = rule_set(&mut random, round % 3);
        let naming = [Naming::Short, Naming::Any, Naming::Meaning][random.below(3)];
        let symbols = naming.names(&mut random, 32, &[]);
        let mut verdicts = vec![b"fail".to_vec(), b"succeed".to_vec()];
        verdicts.extend(naming.names(&mut random, 14, &[b"fail", b"succeed", b"epsilon"]));
        let mut tokens = texts::tokens(&set, &symbols, &verdicts);
        // Few of the texts are long.
        tokens.truncate(if random.once_in(10) { 700 } else { 80 });
        for _ in 0..random.within(1, 2) {
            let place = random.below(tokens.len());
            match random.below(5) {
                0 if tokens.len() > 1 => drop(tokens.remove(place)),
                1 => tokens.insert(place, tokens[place].clone()),
                2 => tokens[place] = RUNS[random.below(RUNS.len())].into(),
                3 => tokens.insert(place, symbols[random.below(32)].clone()),
                _ => {
                    let other = random.below(tokens.len());
                    tokens.swap(place, other);
                }
            }
        }
        tally.add(&read(&Spacing::Few.join(&mut random, &tokens)));
    }
    tally.expect(1_000, [500, 5_000, 100, 300]);
}

/// A text that is read and compiled runs as the reference does with the rules that it reads.
#[test]
fn rules_that_are_read_and_run() {
    let mut random = Random::new(2_006);
    let (mut rewrites, mut verdicts) = (0, 0);
    for round in 0..1_000 {
        let set = Habit::ALL[round % Habit::ALL.len()].either(&mut random);
        let naming = Naming::ALL[random.below(Naming::ALL.len())];
        let spacing = Spacing::ALL[random.below(Spacing::ALL.len())];
        let Written { text, reading } = texts::write(&mut random, &set, naming, spacing);
        let rules = Rules::read(&text).unwrap();
        assert_eq!(rules.table(), reference::table(&reading.set));
        let mut monitor = Monitor::new();
        let mut state = State::default();
        for _ in 0..30 {
            if state.string().len() == watcher::ROOM {
                break;
            }
            let name = &reading.symbols[random.below(set.events.into())];
            let event = rules.names().symbol(name).unwrap();
            let run = monitor.offer(&rules, event, 50).unwrap();
            state.waiting.push(event);
            let (answer, counts) = state.run(&reading.set, 50);
            assert_eq!(run.answer.byte(), answer.byte());
            assert_eq!(
                (run.counts.steps, run.counts.rewrites, run.counts.put_back),
                (counts.steps, counts.rewrites, counts.put_back)
            );
            assert_eq!(monitor.string(), state.string());
            rewrites += counts.rewrites;
            if let Some(verdict) = state.verdict {
                assert_eq!(monitor.verdict(), Some(verdict.number));
                let name = rules.names().name_of_verdict(verdict.number).unwrap();
                let wanted = &reading.verdicts[usize::from(verdict.number)];
                assert_eq!(name.as_bytes(), wanted);
                verdicts += 1;
                break;
            }
        }
    }
    assert!(rewrites > 10_000, "{rewrites} rewrites");
    assert!(verdicts > 100, "{verdicts} verdicts");
}

/// A refused text is refused whatever stands behind the token at which it breaks.
#[test]
fn what_follows_a_break() {
    let mut random = Random::new(2_007);
    let broken = [
        "events a. ",
        "events . ",
        "events a a ",
        "events a . a a a a a a a a a ",
        "a ",
    ];
    for begin in broken {
        let wanted = read(begin.as_bytes()).unwrap_err();
        assert!(wanted.place < begin.len() && wanted.refusal >= 3);
        for _ in 0..200 {
            let mut text = begin.as_bytes().to_vec();
            text.extend((0..random.within(0, 40)).map(|_| random.byte()));
            assert_eq!(read(&text), Err(wanted));
        }
    }
    // At the end it breaks no more once something follows.
    assert_eq!(read(b"events a ").unwrap_err().refusal, MISPLACED);
    assert!(read(b"events a .").is_ok());
}
