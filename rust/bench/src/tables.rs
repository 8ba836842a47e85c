//! Compile and check_table: the library against [`plain::tables`] and [`tuned::tables`].

use crate::timing::{many, Group, Pool, Side, Work, BASELINES, SIDES};
use crate::{plain, tuned};
use reference::random::{self, Random};
use reference::{Right, RuleSet, Symbol};
use std::hint::black_box;
use watcher::raw;

type Compiler = fn(&[u8], &mut [u16], &mut [u64; 1]) -> u32;
type Checker = fn(&[u8], &[u16]) -> u32;

/// The ways to compile, the library's first.
const COMPILERS: [Compiler; SIDES] = [
    raw::compile,
    plain::tables::compile,
    tuned::tables::compile,
    #[cfg(feature = "before")]
    before::compile,
];

/// The ways to check a table, the library's first.
const CHECKERS: [Checker; SIDES] = [
    raw::check_table,
    plain::tables::check_table,
    tuned::tables::check_table,
    #[cfg(feature = "before")]
    before::check_table,
];

/// The races of compile and check_table on each kind of rule sets.
pub fn races() -> Group {
    let mut group = Group::new("Tables", BASELINES);
    for (name, set) in rule_sets() {
        let tables = variants(&set);
        let name = format!("{name} ({} words)", tables[0].table.len());
        group.add(
            &format!("{name}: compile"),
            "call",
            Compile::new(tables.clone()),
        );
        group.add(
            &format!("{name}: check_table"),
            "call",
            Check(Pool::new(tables)),
        );
    }
    group
}

/// The rule sets of which those measured are variants, with their names.
fn rule_sets() -> Vec<(&'static str, RuleSet)> {
    vec![
        ("sample", random::sample()),
        ("middle: 20 rules, S = 12", middle()),
        ("largest: 64 × 8, S = 32", random::largest()),
        (
            "largest with marks: 64 × 8, S = 32",
            random::largest_with_marks(),
        ),
        ("overlapping: 64 × 8, S = 32", random::overlapping(32)),
        ("overlapping: 64 × 8, S = 2", random::overlapping(2)),
    ]
}

/// 20 rules of 2 to 6 symbols over 12 symbols.
fn middle() -> RuleSet {
    let mut random = Random::new(20);
    let lefts = (0..20)
        .map(|_| {
            let length = random.within(2, 6);
            random.string(length, 12)
        })
        .collect();
    random.with_left_sides(12, lefts)
}

/// The rule set with its symbols exchanged and its rules in another order. Its table is as large.
fn exchanged(random: &mut Random, set: &RuleSet) -> RuleSet {
    let mut symbols: Vec<Symbol> = (0..set.symbols).collect();
    shuffle(random, &mut symbols);
    let exchange = |side: &mut Vec<Symbol>| {
        for symbol in side {
            *symbol = symbols[usize::from(*symbol)];
        }
    };
    let mut set = set.clone();
    for rule in &mut set.rules {
        exchange(&mut rule.left);
        if let Right::Symbols(right) = &mut rule.right {
            exchange(right);
        }
    }
    shuffle(random, &mut set.rules);
    set
}

fn shuffle<T>(random: &mut Random, things: &mut [T]) {
    for place in 1..things.len() {
        things.swap(place, random.within(0, place));
    }
}

/// A rule set's image and its table.
#[derive(Clone)]
struct Tables {
    image: Vec<u8>,
    table: Vec<u16>,
}

impl Tables {
    fn new(set: &RuleSet) -> Tables {
        Tables {
            image: reference::encode(set),
            table: reference::table(set),
        }
    }
}

/// A pool's worth of variants of a rule set.
fn variants(set: &RuleSet) -> Vec<Tables> {
    let mut random = Random::new(21);
    let bytes = |tables: &Tables| tables.image.len() + 2 * tables.table.len();
    many(bytes, || Tables::new(&exchanged(&mut random, set)))
}

/// Compiles one image of a pool after another into the same area.
struct Compile {
    tables: Pool<Tables>,
    /// What lies behind the table stays as it is.
    area: Vec<u16>,
}

impl Compile {
    fn new(tables: Vec<Tables>) -> Compile {
        Compile {
            area: Compile::area(&tables[0].table),
            tables: Pool::new(tables),
        }
    }

    /// An area with this table.
    fn area(table: &[u16]) -> Vec<u16> {
        let mut area = vec![0xaaaa; watcher::MAX_TABLE_WORDS];
        area[..table.len()].copy_from_slice(table);
        area
    }
}

impl Work for Compile {
    fn once(&mut self, side: Side) -> bool {
        let image = &self.tables.next(side).image;
        let mut out = [0];
        COMPILERS[side](black_box(image), black_box(&mut self.area), &mut out) == 0
    }

    fn expect_agreement(&mut self) {
        for Tables { image, table } in self.tables.all() {
            let wanted = Compile::area(table);
            for compile in COMPILERS {
                let mut area = Compile::area(&[]);
                let mut out = [0];
                assert_eq!(compile(image, &mut area, &mut out), 0);
                assert!(out == [table.len() as u64] && area == wanted);
            }
        }
        assert!(self.area == Compile::area(&self.tables.last().table));
    }
}

/// Checks one table of a pool after another.
struct Check(Pool<Tables>);

impl Work for Check {
    fn once(&mut self, side: Side) -> bool {
        let Tables { image, table } = self.0.next(side);
        CHECKERS[side](black_box(image), black_box(table)) == 0
    }

    fn expect_agreement(&mut self) {
        for Tables { image, table } in self.0.all() {
            let mut changed = table.clone();
            *changed.last_mut().expect("a word") ^= 1;
            for check_table in CHECKERS {
                assert_eq!(check_table(image, table), 0);
                assert_ne!(check_table(image, &changed), 0);
            }
        }
    }
}

#[cfg(test)]
mod tests {
    use super::*;
    use reference::random::Shape;
    use reference::verdict;

    /// Each side is what the reference says, so that all sides of a race do the same work.
    #[test]
    fn sides_are_the_reference() {
        let mut random = Random::new(7);
        let mut refused = 0;
        let mut differing = 0;
        for case in 0..1_200 {
            let shape = Shape::ALL[case % Shape::ALL.len()];
            let set = match case % 2 {
                0 => shape.rule_set(&mut random),
                _ => shape.with_marks(&mut random),
            };
            let mut image = reference::encode(&set);
            compare(&image, random.below(3));

            let mut table = reference::table(&set);
            let place = random.below(table.len());
            table[place] = random.below(table[0].into()) as u16;
            differing += usize::from(compare_checks(&image, &table) != 0);

            let place = random.below(image.len());
            image[place] = random.below(40) as u8;
            refused += usize::from(reference::parse(&image).is_err());
            compare(&image, 0);
        }
        assert!((400..1_100).contains(&refused), "{refused} refused");
        assert!(differing > 400, "{differing} tables differed");
        for (_, set) in rule_sets() {
            for Tables { image, .. } in variants(&set).iter().take(16) {
                compare(image, 0);
            }
        }
    }

    /// Bodies around the longest of small images, with as many nodes as they can have.
    #[test]
    fn small_and_large() {
        for length in 56..=72 {
            for has_mark in [false, true] {
                let symbols: Vec<Symbol> = (0..length).map(|place| place / 8).collect();
                let mut set = RuleSet {
                    symbols: 9,
                    events: 9,
                    verdicts: 2,
                    rules: symbols.chunks(8).map(|left| verdict(left, 0)).collect(),
                };
                set.rules[3].marked = has_mark;
                let states = usize::from(length) + 1 + usize::from(has_mark);
                assert_eq!(reference::states(&set).len(), states);
                compare(&reference::encode(&set), 0);
            }
        }
    }

    /// A rule set has many variants, and their tables are all as long.
    #[test]
    fn the_tables_measured() {
        for (name, set) in rule_sets() {
            let tables = variants(&set);
            for next in &tables {
                assert_eq!(next.table.len(), tables[0].table.len(), "{name}");
            }
            let mut images: Vec<_> = tables.into_iter().map(|tables| tables.image).collect();
            images.sort();
            images.dedup();
            assert!(images.len() >= 14, "{name}: {}", images.len());
        }
    }

    /// Compares the checks of a table, and returns the refusal.
    fn compare_checks(image: &[u8], table: &[u16]) -> u32 {
        let expected = reference::check_table(image, table).err().unwrap_or(0);
        for check_table in CHECKERS {
            assert_eq!(check_table(image, table), expected);
        }
        expected
    }

    /// Compares compile and check_table on one image, with areas around the length needed.
    fn compare(image: &[u8], more: usize) {
        let needed = reference::parse(image).map_or(4, |set| reference::table_len(&set));
        for area in [needed - 1, needed + more] {
            let before = vec![0xa5a5; area];
            let mut wanted = before.clone();
            let (refusal, words) = match reference::compile(image, area) {
                Ok(table) => {
                    wanted[..table.len()].copy_from_slice(&table);
                    (0, table.len() as u64)
                }
                Err(refusal) => (refusal, 0),
            };
            for compile in COMPILERS {
                let mut after = before.clone();
                let mut out = [9];
                assert_eq!(compile(image, &mut after, &mut out), refusal);
                assert_eq!((out, &after), ([words], &wanted));
            }
            compare_checks(image, &wanted);
        }
    }
}
