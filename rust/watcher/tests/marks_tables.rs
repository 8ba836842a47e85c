//! Tables of rule sets with a start mark: worked ones in words written by hand, all small ones, and tables
//! that come from mistakes about the mark. And the tables of rule sets without a mark, which are those of
//! before.

mod common;

use common::{expect_check, expect_compile, Case};
use reference::random::{self, Random, Shape};
use reference::{marked, string, verdict, Rule, RuleSet, Symbol, MARK};

/// A rule set over these symbols, all of them events.
fn set(symbols: u8, rules: Vec<Rule>) -> RuleSet {
    RuleSet {
        symbols,
        events: symbols,
        verdicts: 2,
        rules,
    }
}

/// Expects these bytes and these words of a rule set, from the reference and from the library.
#[track_caller]
fn expect_table(set: &RuleSet, image: &[u8], table: &[u16]) {
    assert_eq!(reference::encode(set), image);
    assert_eq!(reference::table(set), table);
    expect_compile(image, table.len(), Ok(table));
    expect_compile(image, table.len() + 9, Ok(table));
    expect_compile(image, table.len() - 1, Err(8));
    expect_check(image, table, Ok(()));
    expect_check(image, &table[..table.len() - 1], Err(9));
}

/// The sample with `^ take` for `take`: lock take → held; held free → empty; ^ take → fail.
#[test]
fn sample_with_a_mark() {
    let (lock, take, free, held) = (0, 1, 2, 3);
    let mut rules = random::sample();
    rules.rules[2] = marked(verdict(&[take], 0));
    let image = [
        4, 3, 2, 3, //
        2, 0, 1, 0, //
        2, 0, 0, 0, //
        1, 1, 0, 1, // the mark
        lock, take, held, //
        held, free, //
        take,
    ];
    let table = [
        7, 4, //
        0, 0, 0, 1, 0, 2, 3, //
        2, 6, 1, 4, // 0: ^
        2, 1, 1, 4, // 1: empty
        2, 3, 1, 4, // 2: lock
        2, 1, 1, 4, // 3: lock take
        2, 1, 5, 4, // 4: held
        2, 1, 1, 4, // 5: held free
        2, 1, 1, 4, // 6: ^ take
    ];
    expect_table(&rules, &image, &table);
}

/// The smallest table with a mark, for both kinds of right sides.
#[test]
fn one_marked_symbol() {
    let table = [
        3, 1, //
        0, 0, 1, //
        2, // 0: ^
        1, // 1: empty
        1, // 2: ^ a
    ];
    let rules = set(1, vec![marked(verdict(&[0], 1))]);
    expect_table(&rules, &[1, 1, 2, 1, 1, 1, 1, 1, 0], &table);
    let rules = set(1, vec![marked(string(&[0], &[]))]);
    expect_table(&rules, &[1, 1, 2, 1, 1, 0, 0, 1, 0], &table);
    let rules = set(1, vec![marked(string(&[0], &[0, 0]))]);
    expect_table(&rules, &[1, 1, 2, 1, 1, 0, 2, 1, 0, 0, 0], &table);
}

/// a b; ^ a b; ^ a: only late rules are marked. States 0 and 1 stand before all, then the first rule's
/// prefixes come, and the marked ones have numbers of their own.
#[test]
fn late_marks() {
    let (a, b) = (0, 1);
    let rules = set(
        2,
        vec![
            verdict(&[a, b], 0),
            marked(verdict(&[a, b], 1)),
            marked(string(&[a], &[b])),
        ],
    );
    let image = [
        2, 3, 2, 2, //
        2, 1, 0, 0, //
        2, 1, 1, 1, //
        1, 0, 1, 1, //
        a, b, a, b, a, b,
    ];
    let table = [
        6, 2, //
        0, 0, 0, 1, 3, 2, //
        4, 1, // 0: ^
        2, 1, // 1: empty
        2, 3, // 2: a
        2, 1, // 3: a b
        2, 5, // 4: ^ a
        2, 1, // 5: ^ a b
    ];
    expect_table(&rules, &image, &table);
}

/// b a; ^ a b a; a: what a marked state inherits. `^ a b a` matches its own rule; without that rule it
/// would be `b a`, and without this `a`.
#[test]
fn inherited_matches() {
    let (a, b) = (0, 1);
    let lefts = [
        verdict(&[b, a], 0),
        marked(verdict(&[a, b, a], 0)),
        verdict(&[a], 0),
        marked(verdict(&[a, b, a, a], 0)),
    ];
    let match_words = |rules: &[usize]| {
        let rules = rules.iter().map(|&rule| lefts[rule].clone()).collect();
        let case = Case::new(set(2, rules));
        case.compile_into(case.table.len());
        let states = reference::states(&case.set);
        let whole = vec![MARK, a, b, a];
        let q = states.iter().position(|state| *state == whole);
        case.table[2 + q.expect("a state")]
    };
    assert_eq!(match_words(&[0, 1, 2, 3]), 2);
    assert_eq!(match_words(&[0, 2, 3]), 1);
    assert_eq!(match_words(&[2, 3]), 1);
    assert_eq!(match_words(&[3]), 0);
    assert_eq!(match_words(&[2, 1]), 2);
}

/// On the same span the marked rule, whatever the numbers; of two marked ones the lowest.
#[test]
fn marks_on_the_same_span() {
    let left: &[Symbol] = &[0, 1];
    for count in 1..=4 {
        for marks in 1..1u8 << count {
            let rules = (0..count).map(|rule| Rule {
                marked: marks >> rule & 1 == 1,
                ..verdict(left, 0)
            });
            let case = Case::new(set(2, rules.collect()));
            case.compile_into(case.table.len());
            let states = reference::states(&case.set);
            let at = |string: &[Symbol]| states.iter().position(|state| state == string);
            let first = |marked: bool| {
                let rule = case.set.rules.iter().position(|rule| rule.marked == marked);
                rule.map(|rule| 1 + rule as u16)
            };
            let word = |string: &[Symbol]| at(string).map(|q| case.table[2 + q]);
            assert_eq!(word(&[MARK, 0, 1]), first(true));
            assert_eq!(word(&[0, 1]), first(false));
        }
    }
}

/// `^ a` can never fire beside another `^ a` before it, nor `^ a b` beside `^ a`: yet the table is one with
/// a mark.
#[test]
fn marked_rules_that_never_fire() {
    let (a, b) = (0, 1);
    for rules in [
        vec![marked(string(&[a], &[])), marked(verdict(&[a], 0))],
        vec![marked(string(&[a], &[])), marked(verdict(&[a, b], 0))],
        vec![string(&[a], &[]), marked(verdict(&[a, b], 0))],
        vec![verdict(&[b], 0), marked(verdict(&[a, b, a], 0))],
    ] {
        let case = Case::new(set(2, rules));
        case.compile_into(case.table.len());
        assert!(case.check(&case.table));
        // State 0 is the mark, so nothing leads back to it.
        assert_eq!(reference::states(&case.set)[..2], [vec![MARK], vec![]]);
        let rows = &case.table[2 + case.states()..];
        assert!(!rows.contains(&0));
    }
}

/// Every rule set of up to three rules whose left sides have up to two symbols out of two, marked or not;
/// and of up to two rules with up to four symbols.
#[test]
fn all_small_rule_sets() {
    let lefts = |longest: u32| -> Vec<Rule> {
        let mut rules = Vec::new();
        for length in 1..=longest {
            for bits in 0..1u8 << length {
                let left: Vec<Symbol> = (0..length).map(|place| bits >> place & 1).collect();
                rules.extend([verdict(&left, 1), marked(verdict(&left, 1))]);
            }
        }
        rules
    };
    let mut count = 0;
    for (longest, most) in [(2, 3), (4, 2)] {
        let lefts = lefts(longest);
        let mut sets: Vec<Vec<Rule>> = vec![Vec::new()];
        for rules in 0..=most {
            for rules in &sets {
                let case = Case::new(set(2, rules.clone()));
                case.compile_into(case.table.len());
                assert!(case.check(&case.table));
                count += 1;
            }
            if rules < most {
                sets = sets
                    .iter()
                    .flat_map(|set| {
                        lefts.iter().map(|left| {
                            let mut longer = set.clone();
                            longer.push(left.clone());
                            longer
                        })
                    })
                    .collect();
            }
        }
    }
    assert_eq!(count, 1 + 12 + 144 + 1_728 + 1 + 60 + 3_600);
}

/// The table of a rule set without marks as it was before there were any: a trie whose nodes are numbered
/// as they are made, failure links by breadth, and rows filled from the failure's row.
fn table_without_marks(set: &RuleSet) -> Vec<u16> {
    let s = usize::from(set.symbols);
    let mut children: Vec<Vec<Option<usize>>> = vec![vec![None; s]];
    let mut own = vec![0];
    for (rule, Rule { left, .. }) in set.rules.iter().enumerate() {
        let mut node = 0;
        for &symbol in left {
            node = match children[node][usize::from(symbol)] {
                Some(child) => child,
                None => {
                    let child = children.len();
                    children[node][usize::from(symbol)] = Some(child);
                    children.push(vec![None; s]);
                    own.push(0);
                    child
                }
            };
        }
        if own[node] == 0 {
            own[node] = 1 + rule as u16;
        }
    }
    let n = children.len();
    let mut failure = vec![0; n];
    let mut rows = vec![vec![0; s]; n];
    let mut matches = own.clone();
    let mut queue = std::collections::VecDeque::from([0]);
    while let Some(node) = queue.pop_front() {
        if matches[node] == 0 {
            matches[node] = matches[failure[node]];
        }
        for symbol in 0..s {
            let back = if node == 0 {
                0
            } else {
                rows[failure[node]][symbol]
            };
            rows[node][symbol] = match children[node][symbol] {
                Some(child) => {
                    failure[child] = back;
                    queue.push_back(child);
                    child
                }
                None => back,
            };
        }
    }
    let mut table = vec![n as u16, s as u16];
    table.extend(matches);
    table.extend(rows.concat().iter().map(|&next| next as u16));
    table
}

#[test]
fn rule_sets_without_marks_keep_their_tables() {
    let mut random = Random::new(1_201);
    let mut sets = vec![
        random::sample(),
        random::largest(),
        random::overlapping(2),
        random::overlapping(32),
        random::full(&mut random, 32, 2),
        random::full(&mut random, 32, 32),
    ];
    for shape in Shape::ALL {
        sets.extend((0..300).map(|_| shape.rule_set(&mut random)));
    }
    for set in sets {
        let table = table_without_marks(&set);
        assert_eq!(reference::table(&set), table);
        let image = reference::encode(&set);
        expect_compile(&image, table.len(), Ok(&table));
        expect_check(&image, &table, Ok(()));
        // One mark, and the table is another.
        if let Some(last) = set.rules.len().checked_sub(1) {
            let mut image = image.clone();
            image[4 + 4 * random.within(0, last) + 3] = 1;
            expect_check(&image, &table, Err(9));
        }
    }
}

/// The states in an order, by what is done to the prefixes of each left side.
fn states_by(set: &RuleSet, first: &[&[Symbol]], rules: &[&Rule]) -> Vec<Vec<Symbol>> {
    let mut states: Vec<Vec<Symbol>> = first.iter().map(|state| state.to_vec()).collect();
    assert_eq!(rules.len(), set.rules.len());
    for rule in rules {
        let left = rule.left_with_mark();
        for length in 1..=left.len() {
            if !states.contains(&left[..length].to_vec()) {
                states.push(left[..length].to_vec());
            }
        }
    }
    states
}

/// The number of the longest suffix among the states.
fn longest_suffix(states: &[Vec<Symbol>], read: &[Symbol]) -> usize {
    (0..=read.len())
        .find_map(|start| states.iter().position(|state| *state == read[start..]))
        .expect("the empty string is a state")
}

/// The rule among those whose left sides these strings are: the one with the least key.
fn chosen<K: Ord>(set: &RuleSet, string: &[Symbol], key: impl Fn(&Rule, usize) -> K) -> u16 {
    (0..set.rules.len())
        .filter(|&rule| string.ends_with(&set.rules[rule].left_with_mark()))
        .min_by_key(|&rule| key(&set.rules[rule], rule))
        .map_or(0, |rule| 1 + rule as u16)
}

/// The table of these states by these ways to find a next state and a match.
fn table_by(
    set: &RuleSet,
    states: &[Vec<Symbol>],
    next: &dyn Fn(&[Symbol]) -> usize,
    matched: &dyn Fn(&[Symbol]) -> u16,
) -> Vec<u16> {
    let mut table = vec![states.len() as u16, set.symbols.into()];
    table.extend(states.iter().map(|string| matched(string)));
    for string in states {
        for symbol in 0..set.symbols {
            table.push(next(&[&string[..], &[symbol]].concat()) as u16);
        }
    }
    table
}

/// Tables that are plausible and false: each comes from one mistake about the mark.
#[test]
fn plausible_and_false_tables() {
    let mut random = Random::new(1_204);
    let names = [
        "no marks at all",
        "the empty string before the mark",
        "marked rules numbered first",
        "unmarked rules numbered first",
        "back to state 0 where nothing begins",
        "marked prefixes behind the empty string",
        "no way from a marked prefix to an unmarked one",
        "the lowest rule on the same span",
        "unmarked before marked",
        "the shortest left side",
        "the lowest rule of any length",
        "a marked state without inherited matches",
        "a marked left side anywhere",
        "only the mark's state leads to marked ones",
    ];
    let mut differing = vec![0; names.len()];
    for round in 0..900 {
        let shape = [Shape::TwoSymbols, Shape::Nested, Shape::Equal][round % 3];
        let case = Case::new(shape.with_marks(&mut random));
        let set = &case.set;
        let rules: Vec<&Rule> = set.rules.iter().collect();
        let by_mark = |marked: bool| -> Vec<&Rule> {
            let (first, rest): (Vec<&Rule>, Vec<&Rule>) =
                set.rules.iter().partition(|rule| rule.marked == marked);
            [first, rest].concat()
        };
        let start: &[&[Symbol]] = &[&[MARK], &[]];
        let states = states_by(set, start, &rules);
        let next = |read: &[Symbol]| longest_suffix(&states, read);
        let longest = |rule: &Rule| usize::MAX - rule.left.len();
        let best = |string: &[Symbol]| {
            chosen(set, string, |rule, number| {
                (longest(rule), !rule.marked, number)
            })
        };
        assert!(case.check(&table_by(set, &states, &next, &best)));

        let without = RuleSet {
            rules: (rules.iter())
                .map(|&rule| Rule {
                    marked: false,
                    ..rule.clone()
                })
                .collect(),
            ..set.clone()
        };
        let renumbered = |states: &[Vec<Symbol>]| {
            table_by(set, states, &|read| longest_suffix(states, read), &best)
        };
        let with_next = |next: &dyn Fn(&[Symbol]) -> usize| table_by(set, &states, next, &best);
        let with_match = |found: &dyn Fn(&[Symbol]) -> u16| table_by(set, &states, &next, found);
        let begins_marked = |string: &[Symbol]| string.first() == Some(&MARK);
        let number = |string: &[Symbol]| states.iter().position(|state| state == string);
        let tables = [
            reference::table(&without),
            renumbered(&states_by(set, &[&[], &[MARK]], &rules)),
            renumbered(&states_by(set, start, &by_mark(true))),
            renumbered(&states_by(set, start, &by_mark(false))),
            with_next(&|read| match next(read) {
                1 => 0,
                found => found,
            }),
            with_next(&|read| {
                let read = if begins_marked(read) {
                    &read[1..]
                } else {
                    read
                };
                next(&[&[MARK], read].concat())
            }),
            with_next(&|read| match begins_marked(read) {
                true => number(read).unwrap_or(1),
                false => next(read),
            }),
            with_match(&|string| chosen(set, string, |rule, number| (longest(rule), number))),
            with_match(&|string| {
                chosen(set, string, |rule, number| {
                    (longest(rule), rule.marked, number)
                })
            }),
            with_match(&|string| {
                chosen(set, string, |rule, number| {
                    (rule.left.len(), !rule.marked, number)
                })
            }),
            with_match(&|string| {
                chosen(set, string, |rule, number| {
                    (number, longest(rule), !rule.marked)
                })
            }),
            with_match(&|string| match begins_marked(string) {
                true => (rules.iter())
                    .position(|rule| rule.left_with_mark() == string)
                    .map_or(0, |rule| 1 + rule as u16),
                false => best(string),
            }),
            with_match(&|string| {
                let symbols = if begins_marked(string) {
                    &string[1..]
                } else {
                    string
                };
                chosen(&without, symbols, |rule, number| (longest(rule), number))
            }),
            with_next(&|read| match begins_marked(read) && read.len() > 2 {
                true => next(&read[1..]),
                false => next(read),
            }),
        ];
        for (kind, table) in tables.iter().enumerate() {
            differing[kind] += usize::from(!case.check(table));
        }
    }
    for (name, count) in names.iter().zip(differing) {
        assert!(count > 150, "{name}: {count} tables differ");
    }
}
