//! Images that break the layout or a range, and images that nearly do.
//!
//! Truncated images are slices of whole ones, so that a byte read behind the end is the byte that
//! belongs there and would be believed.

mod common;

use common::{expect_check, expect_compile};
use reference::random::{self, Random, Shape};
use reference::{string, verdict, Rule, RuleSet};

/// Values at the edges of the ranges, and their neighbours.
const EDGES: [u8; 20] = [
    0, 1, 2, 3, 7, 8, 9, 10, 15, 16, 17, 31, 32, 33, 63, 64, 65, 127, 128, 255,
];

/// Compares the refusal of an image, with areas of no words: an accepted image is refused 8 by
/// compile and 9 by the check, since every table has words. Says whether the image is accepted.
#[track_caller]
fn compare(image: &[u8]) -> bool {
    match reference::parse(image) {
        Ok(_) => {
            expect_compile(image, 0, Err(reference::SHORT_AREA));
            expect_check(image, &[], Err(reference::OTHER_TABLE));
            true
        }
        Err(refusal) => {
            expect_compile(image, 0, Err(refusal));
            expect_check(image, &[], Err(refusal));
            false
        }
    }
}

/// As [`compare`], and compares the table, or that an area long enough for any is left alone.
#[track_caller]
fn compare_table(image: &[u8]) -> bool {
    let accepted = compare(image);
    match reference::compile(image, usize::MAX) {
        Ok(table) => {
            expect_compile(image, table.len(), Ok(&table));
            expect_check(image, &table, Ok(()));
        }
        Err(refusal) => expect_compile(image, 2_000, Err(refusal)),
    }
    accepted
}

/// Counts what was accepted and what was refused, so that a test that tries only one of them is
/// noticed.
#[derive(Default)]
struct Tally {
    accepted: usize,
    refused: usize,
}

impl Tally {
    fn add(&mut self, accepted: bool) {
        if accepted {
            self.accepted += 1;
        } else {
            self.refused += 1;
        }
    }

    #[track_caller]
    fn at_least(&self, accepted: usize, refused: usize) {
        assert!(self.accepted >= accepted, "{} accepted", self.accepted);
        assert!(self.refused >= refused, "{} refused", self.refused);
    }
}

fn string_rule(left: usize, right: usize) -> Rule {
    string(&vec![0; left], &vec![0; right])
}

/// Images of small rule sets of every shape, without marks and with.
fn small_images(seed: u64, each: usize) -> Vec<Vec<u8>> {
    let mut random = Random::new(seed);
    let mut images = vec![reference::encode(&random::sample())];
    for shape in Shape::ALL {
        for _ in 0..each {
            images.push(reference::encode(&shape.rule_set(&mut random)));
            images.push(reference::encode(&shape.with_marks(&mut random)));
        }
    }
    images
}

/// Images as long as they can be: the largest rule sets, and one of drawn symbols.
fn longest_images() -> Vec<Vec<u8>> {
    let mut random = Random::new(201);
    let drawn = RuleSet {
        symbols: 20,
        events: 7,
        verdicts: 9,
        rules: (0..64)
            .map(|_| string(&random.string(8, 20), &random.string(8, 20)))
            .collect(),
    };
    let images = vec![
        reference::encode(&random::largest()),
        reference::encode(&random::largest_with_marks()),
        reference::encode(&drawn),
    ];
    for image in &images {
        assert_eq!(image.len(), watcher::MAX_IMAGE_BYTES);
        assert!(compare(image));
    }
    images
}

#[test]
fn each_byte_of_the_sample_set_to_each_value() {
    let image = reference::encode(&random::sample());
    let mut tally = Tally::default();
    for place in 0..image.len() {
        for value in 0..=255 {
            let mut damaged = image.clone();
            damaged[place] = value;
            tally.add(compare_table(&damaged));
        }
    }
    tally.at_least(50, 5_000);
}

#[test]
fn each_byte_of_small_images_set_to_each_value() {
    let mut tally = Tally::default();
    for image in small_images(202, 3) {
        for place in 0..image.len() {
            for value in 0..=255 {
                let mut damaged = image.clone();
                damaged[place] = value;
                tally.add(compare(&damaged));
            }
        }
    }
    tally.at_least(10_000, 200_000);
}

#[test]
fn each_byte_of_the_longest_images_set_to_edge_values() {
    let mut random = Random::new(203);
    let mut tally = Tally::default();
    for image in longest_images() {
        for place in 0..image.len() {
            let drawn = [random.byte(), random.byte(), random.byte()];
            for value in EDGES.into_iter().chain(drawn) {
                let mut damaged = image.clone();
                damaged[place] = value;
                tally.add(compare(&damaged));
            }
        }
    }
    tally.at_least(20_000, 10_000);
}

#[test]
fn truncated_at_every_length() {
    let mut images = small_images(204, 20);
    images.extend(longest_images());
    for image in images {
        assert!(compare(&image));
        for length in 0..image.len() {
            assert!(!compare(&image[..length]));
        }
    }
}

#[test]
fn lengthened() {
    let mut random = Random::new(205);
    let mut images = small_images(206, 5);
    images.extend(longest_images());
    for image in images {
        // 256, 65,536 and their like: a length that is only wrong in its high part.
        for more in (1..=20).chain([255, 256, 1_000, 65_535, 65_536, 131_072]) {
            for byte in [0, 1, 255] {
                let mut longer = image.clone();
                longer.resize(image.len() + more, byte);
                assert!(!compare(&longer));
            }
            let mut longer = image.clone();
            longer.extend((0..more).map(|_| random.byte()));
            assert!(!compare(&longer));
        }
    }
}

#[test]
fn images_of_up_to_three_bytes() {
    assert!(!compare_table(&[]));
    for a in 0..=255 {
        assert!(!compare_table(&[a]));
        for b in EDGES {
            assert!(!compare(&[a, b]));
            for c in EDGES {
                assert!(!compare(&[a, b, c]));
            }
        }
    }
}

/// Four bytes: every number of symbols and events, with the edges of the other two.
#[test]
fn every_header() {
    let mut tally = Tally::default();
    for symbols in 0..=255 {
        for events in 0..=255 {
            for verdicts in EDGES {
                tally.add(compare(&[symbols, 0, verdicts, events]));
            }
            for rules in EDGES {
                tally.add(compare(&[symbols, rules, 2, events]));
            }
        }
    }
    // 528 pairs of symbols and events; 8 of the verdicts' edges are in range; one number of rules.
    assert_eq!(tally.accepted, 528 * (8 + 1));
    tally.at_least(1, 2_000_000);
}

/// One rule: the edges of every byte of its entry, with bodies of every length.
#[test]
fn every_entry() {
    let mut tally = Tally::default();
    for length in 0..=20 {
        for left in EDGES {
            for kind in [0, 1, 2, 3, 128, 255] {
                for right in EDGES {
                    for last in [0, 1, 2, 3, 128, 255] {
                        let mut image = vec![1, 1, 9, 1, left, kind, right, last];
                        image.resize(8 + length, 0);
                        tally.add(compare(&image));
                    }
                }
            }
        }
    }
    // Left sides of 1, 2, 3, 7 and 8 symbols; strings of 0, 1, 2, 3, 7 and 8 and verdicts of 0, 1,
    // 2, 3, 7 and 8; unmarked and marked; each with the one length that fits.
    assert_eq!(tally.accepted, 5 * (6 + 6) * 2);
}

/// The fourth byte of each rule's entry set to each value: 0 and 1 are accepted, whatever the rule's kind
/// and whether the other rules are marked. All others are refused, by compile and by the check.
#[test]
fn every_fourth_byte() {
    let kinds = [
        string(&[1, 0], &[0; 8]),
        verdict(&[0], 1),
        string(&[2], &[]),
        verdict(&[1; 8], 15),
    ];
    let mut tally = Tally::default();
    for count in [1, 2, 5, 63, 64] {
        for first in 0..kinds.len() {
            for others in [false, true] {
                let rules: Vec<Rule> = (0..count)
                    .map(|rule| Rule {
                        marked: others,
                        ..kinds[(first + rule) % kinds.len()].clone()
                    })
                    .collect();
                let image = reference::encode(&RuleSet {
                    symbols: 3,
                    events: 2,
                    verdicts: 16,
                    rules,
                });
                for rule in 0..count {
                    for value in 0..=255 {
                        let mut changed = image.clone();
                        let fourth = 4 + 4 * rule + 3;
                        assert_eq!(changed[fourth], others.into());
                        changed[fourth] = value;
                        let accepted = compare(&changed);
                        assert_eq!(accepted, value < 2);
                        tally.add(accepted);
                    }
                }
            }
        }
    }
    let rules = 4 * 2 * (1 + 2 + 5 + 63 + 64);
    assert_eq!((tally.accepted, tally.refused), (rules * 2, rules * 254));
}

/// Images whose fourth bytes alone differ: each has the table of its own marks.
#[test]
fn every_set_of_marks() {
    // a b; b; a b; b a a
    let image = reference::encode(&RuleSet {
        symbols: 2,
        events: 2,
        verdicts: 2,
        rules: vec![
            string(&[0, 1], &[1]),
            verdict(&[1], 0),
            verdict(&[0, 1], 1),
            string(&[1, 0, 0], &[]),
        ],
    });
    let mut tables = Vec::new();
    for marks in 0..16u8 {
        let mut image = image.clone();
        for rule in 0..4 {
            image[4 + 4 * rule + 3] = marks >> rule & 1;
        }
        assert!(compare_table(&image));
        tables.push(reference::compile(&image, usize::MAX).unwrap());
    }
    for (marks, table) in tables.iter().enumerate() {
        assert!(!tables[..marks].contains(table), "marks {marks:b}");
    }
}

/// Lengths changed by pairs so that the image's length still fits: in range the same bodies are cut
/// otherwise, out of range the image is refused though every byte has a place.
#[test]
fn lengths_that_make_up_for_each_other() {
    let mut random = Random::new(207);
    let mut tally = Tally::default();
    let mut tables = 0;
    for case in 0..6_000 {
        let shape = [Shape::TwoSymbols, Shape::Nested, Shape::Equal][case % 3];
        let mut image = reference::encode(&shape.either(&mut random));
        let rules = usize::from(image[1]);
        let mut lengths: Vec<usize> = (0..rules).map(|rule| 4 + 4 * rule).collect();
        lengths.extend(
            (0..rules)
                .map(|rule| 6 + 4 * rule)
                .filter(|&p| image[p - 1] == 0),
        );
        let more = lengths[random.below(lengths.len())];
        let fewer = lengths[random.below(lengths.len())];
        let by = random.within(1, 3) as u8;
        image[more] = image[more].wrapping_add(by);
        image[fewer] = image[fewer].wrapping_sub(by);
        let accepted = if case < 2_000 {
            tables += 1;
            compare_table(&image)
        } else {
            compare(&image)
        };
        tally.add(accepted);
    }
    assert_eq!(tables, 2_000);
    tally.at_least(2_000, 1_500);
}

/// Kinds changed together with the lengths: a string that becomes a verdict and the reverse.
#[test]
fn kinds_changed() {
    let mut random = Random::new(208);
    let mut tally = Tally::default();
    for case in 0..4_000 {
        let shape = [Shape::Any, Shape::TwoSymbols, Shape::Equal][case % 3];
        let mut image = reference::encode(&shape.either(&mut random));
        let entry = 4 + 4 * random.below(image[1].into());
        let right = usize::from(image[entry + 2]);
        if image[entry + 1] == 0 {
            image[entry + 1] = 1;
            image.truncate(image.len() - right);
        } else {
            image[entry + 1] = 0;
            image.resize(image.len() + right, 0);
        }
        tally.add(compare_table(&image));
    }
    tally.at_least(2_000, 500);
}

/// Rule sets that are one past a range and otherwise well laid out, beside those at its end.
#[test]
fn one_past_each_range() {
    let good = RuleSet {
        symbols: 32,
        events: 32,
        verdicts: 16,
        rules: vec![string_rule(8, 8); 64],
    };
    let rules = |rules: Vec<Rule>| RuleSet {
        rules,
        ..good.clone()
    };
    let verdict_rule = |number| vec![verdict(&[31], number)];
    let accepted = [
        good.clone(),
        rules(vec![]),
        rules(vec![string_rule(1, 0)]),
        rules(verdict_rule(15)),
        RuleSet {
            events: 1,
            ..good.clone()
        },
        RuleSet {
            verdicts: 2,
            ..good.clone()
        },
        RuleSet {
            symbols: 1,
            events: 1,
            ..good.clone()
        },
    ];
    for set in accepted {
        assert!(compare_table(&reference::encode(&set)), "{set:?}");
    }
    let refused = [
        RuleSet {
            symbols: 33,
            ..good.clone()
        },
        RuleSet {
            symbols: 0,
            events: 0,
            rules: vec![],
            ..good.clone()
        },
        RuleSet {
            symbols: 0,
            events: 1,
            rules: vec![],
            ..good.clone()
        },
        RuleSet {
            symbols: 31,
            ..good.clone()
        },
        RuleSet {
            events: 0,
            ..good.clone()
        },
        RuleSet {
            events: 33,
            ..good.clone()
        },
        RuleSet {
            verdicts: 1,
            ..good.clone()
        },
        RuleSet {
            verdicts: 0,
            ..good.clone()
        },
        RuleSet {
            verdicts: 17,
            ..good.clone()
        },
        rules(vec![string_rule(8, 8); 65]),
        rules(vec![string_rule(1, 0); 65]),
        rules(vec![string_rule(1, 0); 255]),
        rules(vec![string_rule(9, 0)]),
        rules(vec![string_rule(9, 7); 64]),
        rules(vec![string_rule(0, 0)]),
        rules(vec![string_rule(0, 8)]),
        rules(vec![string_rule(8, 9)]),
        rules(vec![string_rule(7, 9); 64]),
        rules(vec![string_rule(255, 255); 255]),
        rules(verdict_rule(16)),
        rules(verdict_rule(255)),
    ];
    for set in refused {
        let image = reference::encode(&set);
        assert!(!compare_table(&image), "{set:?}");
    }
}

/// In each place of a body: the largest symbol is accepted, the number of symbols is not.
#[test]
fn each_symbol_of_each_body() {
    for symbols in [1, 2, 17, 32] {
        let image = reference::encode(&RuleSet {
            symbols,
            events: 1,
            verdicts: 2,
            rules: vec![string_rule(8, 8); 64],
        });
        assert_eq!(image.len(), 1_284);
        for place in 4 + 4 * 64..image.len() {
            for (value, good) in [(symbols - 1, true), (symbols, false), (255, false)] {
                let mut damaged = image.clone();
                damaged[place] = value;
                assert_eq!(compare(&damaged), good);
            }
        }
    }
}

/// One to three bytes changed anywhere, by a little or to anything.
#[test]
fn several_bytes_changed() {
    let mut random = Random::new(209);
    let mut tally = Tally::default();
    for case in 0..60_000 {
        let shape = Shape::ALL[case % 5];
        let mut image = reference::encode(&shape.either(&mut random));
        for _ in 0..random.within(1, 3) {
            let place = random.below(image.len());
            image[place] = match random.below(4) {
                0 => image[place].wrapping_add(1),
                1 => image[place].wrapping_sub(1),
                2 => EDGES[random.below(EDGES.len())],
                _ => random.byte(),
            };
        }
        tally.add(if case < 6_000 {
            compare_table(&image)
        } else {
            compare(&image)
        });
    }
    tally.at_least(5_000, 30_000);
}

/// Bytes that are no image at all, of lengths up to beyond the longest image.
#[test]
fn arbitrary_bytes() {
    let mut random = Random::new(210);
    let mut refused = 0;
    for _ in 0..20_000 {
        let length = random.within(0, 1_400);
        let bound = [2, 9, 33, 256][random.below(4)];
        let mut image: Vec<u8> = (0..length).map(|_| random.below(bound) as u8).collect();
        // Half of them begin with a good header.
        if length > 4 && random.once_in(2) {
            let rules = random.within(0, 64) as u8;
            image[..4].copy_from_slice(&[32, rules, 16, 1]);
        }
        refused += usize::from(!compare(&image));
    }
    assert!(refused > 19_000, "{refused} refused");
    assert!(!compare_table(&vec![0; 100_000]));
    assert!(!compare_table(&vec![1; 100_000]));
}
