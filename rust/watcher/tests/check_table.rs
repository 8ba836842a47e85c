//! The check of a table against the reference: a table is accepted if and only if it begins with the
//! words that the reference gives for the image.

mod common;

use common::{expect_check, Case};
use reference::random::{self, Random, Shape};
use reference::{Right, RuleSet, Symbol};

/// Cases of every shape, without marks and with.
fn cases(seed: u64, each: usize) -> Vec<Case> {
    let mut random = Random::new(seed);
    let mut cases = vec![Case::new(random::sample())];
    for shape in Shape::ALL {
        for _ in 0..each {
            cases.push(Case::new(shape.rule_set(&mut random)));
            cases.push(Case::new(shape.with_marks(&mut random)));
        }
    }
    cases
}

/// Cases with large tables.
fn large_cases(seed: u64) -> Vec<Case> {
    let mut random = Random::new(seed);
    vec![
        Case::new(random::largest()),
        Case::new(random::largest_with_marks()),
        Case::new(random::overlapping(2)),
        Case::new(random::overlapping(32)),
        Case::new(random::full(&mut random, 32, 3)),
        Case::new(random::full(&mut random, 7, 7)),
    ]
}

/// Where the word for the next state of `q` on `symbol` is.
fn place(case: &Case, q: usize, symbol: usize) -> usize {
    2 + case.states() + q * usize::from(case.set.symbols) + symbol
}

#[test]
fn exact_tables() {
    for case in cases(301, 300).iter().chain(&large_cases(302)) {
        assert!(case.check(&case.table));
    }
}

/// Words behind the table are not looked at, whatever they are.
#[test]
fn longer_tables() {
    let mut random = Random::new(303);
    for case in cases(304, 50).iter().chain(&large_cases(305)) {
        for more in [1, 2, 3, 32, 1_000, 70_000] {
            for word in [0, 1, 0xffff] {
                let mut longer = case.table.clone();
                longer.resize(case.table.len() + more, word);
                assert!(case.check(&longer));
                longer[random.below(case.table.len())] ^= 1;
                assert!(!case.check(&longer));
            }
        }
        let mut longer = case.table.clone();
        longer.extend((0..random.within(1, 100)).map(|_| random.word()));
        assert!(case.check(&longer));
    }
}

/// Tables cut at every length. What follows the slice is the rest of the table.
#[test]
fn shorter_tables() {
    for case in cases(306, 10).iter().chain(&large_cases(307)) {
        let needed = case.table.len();
        let steps = 1 + needed / 3_000;
        for length in (0..needed).step_by(steps).chain([needed - 1]) {
            assert!(!case.check(&case.table[..length]));
        }
    }
}

#[test]
fn each_word_of_small_tables_changed() {
    let mut random = Random::new(308);
    let mut changed = 0;
    for case in cases(309, 8) {
        let n = case.table[0];
        for place in 0..case.table.len() {
            let word = case.table[place];
            let mut values = vec![word.wrapping_add(1), word.wrapping_sub(1), word ^ 0x8000];
            values.extend([0, 1, n - 1, n, n.wrapping_mul(2), 0x0100 | word, 0xffff]);
            values.extend([random.word(), random.below(n.into()) as u16]);
            for value in values {
                let mut table = case.table.clone();
                table[place] = value;
                assert_eq!(case.check(&table), value == word);
                changed += usize::from(value != word);
            }
        }
    }
    assert!(changed > 50_000, "{changed} changed");
}

#[test]
fn random_words_of_large_tables_changed() {
    let mut random = Random::new(310);
    for case in large_cases(311) {
        let n = case.states();
        for round in 0..4_000 {
            let place = match round % 4 {
                0 => random.below(2 + n),
                _ => random.below(case.table.len()),
            };
            let mut table = case.table.clone();
            table[place] = match random.below(3) {
                0 => table[place].wrapping_add(1),
                1 => table[place].wrapping_sub(1),
                _ => table[place] ^ (1 << random.below(16)),
            };
            assert!(!case.check(&table));
        }
    }
}

/// Several words changed at once, mostly to words that occur in the table.
#[test]
fn several_words_changed() {
    let mut random = Random::new(312);
    let mut changed = 0;
    for case in cases(313, 20) {
        for _ in 0..100 {
            let mut table = case.table.clone();
            for _ in 0..random.within(2, 6) {
                let place = random.below(table.len());
                table[place] = match random.below(5) {
                    0 => random.word(),
                    1 => random.below(case.states()) as u16,
                    _ => table[random.below(table.len())],
                };
            }
            changed += usize::from(!case.check(&table));
        }
    }
    assert!(changed > 8_000, "{changed} changed");
}

/// Tables of rule sets that differ a little from that of the image, and of any others.
#[test]
fn tables_of_other_rule_sets() {
    let mut random = Random::new(314);
    let (mut same, mut other) = (0, 0);
    let mut count = |begins: bool| {
        if begins {
            same += 1;
        } else {
            other += 1;
        }
    };
    for index in 0..3_000 {
        let shape = [Shape::TwoSymbols, Shape::Nested, Shape::Equal, Shape::Any][index % 4];
        let case = Case::new(shape.either(&mut random));
        let mut set = case.set.clone();
        let rule = random.below(set.rules.len());
        match random.below(7) {
            // One symbol of a left side.
            0 => {
                let left = &mut set.rules[rule].left;
                let place = random.below(left.len());
                left[place] = random.below(set.symbols.into()) as Symbol;
            }
            // Two rules change places.
            1 => {
                let with = random.below(set.rules.len());
                set.rules.swap(rule, with);
            }
            // A rule less.
            2 => {
                set.rules.remove(rule);
            }
            // Another right side: the table is the same.
            3 => set.rules[rule].right = Right::Verdict(1),
            // A mark more or fewer.
            6 => set.rules[rule].marked ^= true,
            // A symbol more, or a left side cut short.
            4 if set.symbols < 32 => set.symbols += 1,
            _ if set.rules[rule].left.len() > 1 => {
                set.rules[rule].left.pop();
            }
            _ => {}
        }
        count(case.check(&reference::table(&set)));
    }
    let cases = cases(315, 30);
    for case in &cases {
        for with in &cases {
            count(case.check(&with.table));
        }
    }
    assert!(same > 500, "{same} were the same");
    assert!(other > 20_000, "{other} were others");
}

/// The table in which states have other numbers: state q is called `names[q]`.
fn renumbered(case: &Case, names: &[usize]) -> Vec<u16> {
    let n = case.states();
    let s = usize::from(case.set.symbols);
    let mut table = case.table.clone();
    for q in 0..n {
        table[2 + names[q]] = case.table[2 + q];
        for symbol in 0..s {
            let next = usize::from(case.table[place(case, q, symbol)]);
            table[place(case, names[q], symbol)] = names[next] as u16;
        }
    }
    table
}

/// Two states' numbers exchanged everywhere: the same automaton, but not the same table.
#[test]
fn numbers_of_two_states_swapped() {
    let mut random = Random::new(316);
    let mut swapped = 0;
    for case in cases(317, 40).iter().chain(&large_cases(318)) {
        let n = case.states();
        if n < 2 {
            continue;
        }
        for _ in 0..40 {
            let (p, q) = (random.below(n), random.below(n));
            let mut names: Vec<usize> = (0..n).collect();
            names.swap(p, q);
            let table = renumbered(case, &names);
            assert_eq!(case.check(&table), p == q);
            swapped += usize::from(p != q);
        }
    }
    assert!(swapped > 5_000, "{swapped} swapped");
}

/// Exchanges of two rows, two match words, or two words of a row.
#[test]
fn words_swapped() {
    let mut random = Random::new(319);
    let mut changed = [0; 3];
    for case in cases(320, 40).iter().chain(&large_cases(321)) {
        let n = case.states();
        let s = usize::from(case.set.symbols);
        for _ in 0..60 {
            let (p, q) = (random.below(n), random.below(n));
            let mut table = case.table.clone();
            let kind = random.below(3);
            match kind {
                0 => {
                    for symbol in 0..s {
                        table.swap(place(case, p, symbol), place(case, q, symbol));
                    }
                }
                1 => table.swap(2 + p, 2 + q),
                _ => table.swap(
                    place(case, p, random.below(s)),
                    place(case, p, random.below(s)),
                ),
            }
            changed[kind] += usize::from(!case.check(&table));
        }
    }
    assert!(changed.iter().all(|&count| count > 800), "{changed:?}");
}

/// One transition changed in every state that has it by the same suffix, so that rows still agree
/// with each other: for a state q and a symbol, all states whose string ends in q's.
#[test]
fn a_transition_changed_in_all_states_that_share_it() {
    let mut random = Random::new(322);
    let (mut changed, mut shared) = (0, 0);
    for case in cases(323, 60).iter().chain(&large_cases(324)) {
        let states = reference::states(&case.set);
        let n = states.len();
        let s = usize::from(case.set.symbols);
        for _ in 0..40 {
            let (q, symbol) = (random.below(n), random.below(s));
            let value = random.below(n) as u16;
            let old = case.table[place(case, q, symbol)];
            let mut table = case.table.clone();
            let mut rows = 0;
            for p in 0..n {
                let at = place(case, p, symbol);
                if table[at] == old && states[p].ends_with(&states[q]) {
                    table[at] = value;
                    rows += 1;
                }
            }
            assert_eq!(case.check(&table), value == old);
            changed += usize::from(value != old);
            shared += usize::from(value != old && rows > 1);
        }
    }
    assert!(changed > 5_000, "{changed} changed");
    assert!(shared > 2_000, "{shared} in several rows");
}

/// A way to find a next state among the states.
type Next = fn(&[Vec<Symbol>], &[Symbol]) -> usize;
/// A way to find a match word.
type Match = fn(&RuleSet, &[Symbol]) -> usize;

fn number(states: &[Vec<Symbol>], string: &[Symbol]) -> Option<usize> {
    states.iter().position(|state| state == string)
}

/// The longest suffix, as it should be.
fn longest_suffix(states: &[Vec<Symbol>], read: &[Symbol]) -> usize {
    (0..=read.len())
        .find_map(|start| number(states, &read[start..]))
        .unwrap()
}

/// The longest left side, as it should be.
fn longest_left_side(set: &RuleSet, string: &[Symbol]) -> usize {
    (0..string.len())
        .find_map(|start| (set.rules.iter()).position(|rule| rule.left == string[start..]))
        .map_or(0, |rule| rule + 1)
}

/// The table of these states by these ways.
fn table_by(set: &RuleSet, states: &[Vec<Symbol>], next: Next, matched: Match) -> Vec<u16> {
    let mut table = vec![states.len() as u16, set.symbols.into()];
    table.extend(states.iter().map(|string| matched(set, string) as u16));
    for string in states {
        for symbol in 0..set.symbols {
            let read = [&string[..], &[symbol]].concat();
            table.push(next(states, &read) as u16);
        }
    }
    table
}

/// Tables that are plausible and false: each comes from one mistake in the making.
#[test]
fn plausible_and_false_tables() {
    let nexts: [(&str, Next); 3] = [
        ("no fallback", |states, read| {
            number(states, read).unwrap_or(0)
        }),
        ("fallback to the last symbol only", |states, read| {
            let last = &read[read.len() - 1..];
            number(states, read).or(number(states, last)).unwrap_or(0)
        }),
        ("the shortest suffix", |states, read| {
            (0..read.len())
                .rev()
                .find_map(|start| number(states, &read[start..]))
                .unwrap_or(0)
        }),
    ];
    let matches: [(&str, Match); 4] = [
        ("only a state's own left side", |set, string| {
            (set.rules.iter())
                .position(|rule| rule.left == string)
                .map_or(0, |rule| rule + 1)
        }),
        ("the last of equal rules", |set, string| {
            (0..string.len())
                .find_map(|start| (set.rules.iter()).rposition(|rule| rule.left == string[start..]))
                .map_or(0, |rule| rule + 1)
        }),
        ("the shortest left side", |set, string| {
            (0..string.len())
                .rev()
                .find_map(|start| (set.rules.iter()).position(|rule| rule.left == string[start..]))
                .map_or(0, |rule| rule + 1)
        }),
        ("the lowest rule of any length", |set, string| {
            (set.rules.iter())
                .position(|rule| string.ends_with(&rule.left))
                .map_or(0, |rule| rule + 1)
        }),
    ];
    let mut random = Random::new(325);
    let mut differing = [0; 3 + 4 + 2];
    for index in 0..1_200 {
        let shape = [Shape::TwoSymbols, Shape::Nested, Shape::Equal][index % 3];
        let case = Case::new(shape.rule_set(&mut random));
        let set = &case.set;
        let states = reference::states(set);
        assert!(case.check(&table_by(set, &states, longest_suffix, longest_left_side)));

        let mut by_length = states.clone();
        by_length.sort_by_key(Vec::len);
        let mut long_first = vec![Vec::new()];
        for rule in &set.rules {
            for length in (1..=rule.left.len()).rev() {
                if number(&long_first, &rule.left[..length]).is_none() {
                    long_first.push(rule.left[..length].to_vec());
                }
            }
        }
        let mut tables = Vec::new();
        for (_, next) in nexts {
            tables.push(table_by(set, &states, next, longest_left_side));
        }
        for (_, matched) in matches {
            tables.push(table_by(set, &states, longest_suffix, matched));
        }
        for states in [&by_length, &long_first] {
            tables.push(table_by(set, states, longest_suffix, longest_left_side));
        }
        for (kind, table) in tables.iter().enumerate() {
            assert_eq!(table.len(), case.table.len());
            differing[kind] += usize::from(!case.check(table));
        }
    }
    let names = (nexts.iter().map(|(name, _)| *name))
        .chain(matches.iter().map(|(name, _)| *name))
        .chain(["states numbered by length", "long before short"]);
    for (name, count) in names.zip(differing) {
        assert!(count > 300, "{name}: {count} tables differ");
    }
}

/// Words that are no table: next states far out of range, zeros, anything.
#[test]
fn words_that_are_no_table() {
    let mut random = Random::new(326);
    let mut refused = 0;
    for case in cases(327, 30).iter().chain(&large_cases(328)) {
        let n = case.states();
        let needed = case.table.len();
        let mut tables = vec![
            vec![0; needed],
            vec![0xffff; needed],
            vec![case.table[0]; needed],
        ];
        tables.push((0..needed).map(|_| random.word()).collect());
        tables.push((0..needed).map(|_| random.below(n) as u16).collect());
        // The true states of the trie, and everything else out of range.
        tables.push(
            (case.table.iter())
                .map(|&word| if word == 0 { 0xffff } else { word })
                .collect(),
        );
        for mut table in tables {
            refused += usize::from(!case.check(&table));
            table[..2].copy_from_slice(&case.table[..2]);
            refused += usize::from(!case.check(&table));
            table[..2 + n].copy_from_slice(&case.table[..2 + n]);
            refused += usize::from(!case.check(&table));
        }
    }
    assert!(refused > 2_000, "{refused} refused");
}

/// A bad image is refused 7 before the table is looked at, right or wrong.
#[test]
fn bad_images() {
    for case in cases(329, 50) {
        let mut longer = case.image.clone();
        longer.push(0);
        let mut no_verdicts = case.image.clone();
        no_verdicts[2] = 0;
        let shorter = &case.image[..case.image.len() - 1];
        for image in [&longer, &no_verdicts, shorter] {
            assert_eq!(reference::check_table(image, &case.table), Err(7));
            expect_check(image, &case.table, Err(7));
            expect_check(image, &case.table[1..], Err(7));
            expect_check(image, &[], Err(7));
        }
        expect_check(&case.image, &[], Err(9));
        expect_check(&case.image, &case.table, Ok(()));
    }
}
