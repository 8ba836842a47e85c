//! Rule texts: the library's reader against [`plain::reader`] and [`tuned::reader`].

use crate::timing::{many, Group, Pool, Side, Work, BASELINES, SIDES};
use crate::{plain, tuned};
use reference::random::{sample, Random};
use reference::reader::{self as naive, Name, IMAGE_AREA, MAX_TEXT_BYTES, NAME_AREA};
use reference::texts::{tokens, Naming};
use reference::{string, RuleSet};
use std::hint::black_box;
use watcher::raw;

/// The specification's sample.
const SAMPLE: &[u8] =
    b"events lock take free . lock take -> held . held free -> #epsilon . take -> #fail .";

/// The races of the reader on each kind of texts.
pub fn races() -> Group {
    let mut group = Group::new("Rule texts", BASELINES);
    for (name, texts) in kinds() {
        let tokens = naive::runs(&texts[0]).len();
        let bytes: usize = texts.iter().map(Vec::len).sum();
        let bytes = (bytes + texts.len() / 2) / texts.len();
        let name = format!("{name} ({bytes} bytes, {tokens} tokens)");
        group.add(&name, "read", Reading::new(texts));
    }
    group
}

/// The kinds of texts measured, with their names. The sample is one text, read over and over, since
/// it is the specification's. Of all other kinds there are many texts: each has names of its own,
/// and all but those with the sample's rules have rules of their own.
fn kinds() -> Vec<(&'static str, Vec<Vec<u8>>)> {
    let eights = |random: &mut Random| rules(random, 8, 8);
    vec![
        ("the sample", vec![SAMPLE.to_vec()]),
        (
            "the sample's rules, other names",
            texts(|random| {
                // As long as the sample's, or a byte shorter or longer.
                let names = names(random, 4, 3, 5);
                tokens(&sample(), &names, &[b"fail".to_vec()]).join(&b' ')
            }),
        ),
        (
            "64 × 8 → 8, short names",
            texts(|random| tokens(&eights(random), &names(random, 32, 1, 2), &[]).join(&b' ')),
        ),
        (
            "the same, with separators",
            texts(|random| filled(&tokens(&eights(random), &names(random, 32, 1, 2), &[]))),
        ),
        (
            "64 × 8 → 8, names of 14 bytes",
            texts(|random| filled(&tokens(&eights(random), &names(random, 32, 14, 14), &[]))),
        ),
        (
            "the same, names alike",
            texts(|random| filled(&tokens(&eights(random), &alike(random), &[]))),
        ),
        (
            "64 × 5 → 4, names of 24 bytes",
            texts(|random| {
                let rules = rules(random, 5, 4);
                filled(&tokens(&rules, &names(random, 32, 24, 24), &[]))
            }),
        ),
        (
            "64 × 8 → 8, the last token breaks",
            texts(|random| {
                let rules = eights(random);
                let mut text = filled(&tokens(&rules, &names(random, 32, 14, 14), &[]));
                // A `->` for the last `.`, and a space less before it.
                text[MAX_TEXT_BYTES - 2..].copy_from_slice(b"->");
                text
            }),
        ),
    ]
}

/// A pool's worth of texts.
fn texts(text: impl Fn(&mut Random) -> Vec<u8>) -> Vec<Vec<u8>> {
    let mut random = Random::new(30);
    many(Vec::len, || text(&mut random))
}

/// 64 rules over 32 events, with so many symbols on the left and on the right.
fn rules(random: &mut Random, left: usize, right: usize) -> RuleSet {
    let mut side = |length| random.string(length, 32);
    RuleSet {
        symbols: 32,
        events: 32,
        verdicts: 2,
        rules: (0..64).map(|_| string(&side(left), &side(right))).collect(),
    }
}

/// So many different names of `least` to `most` bytes.
fn names(random: &mut Random, count: usize, least: usize, most: usize) -> Vec<Name> {
    different(count, || {
        let mut name = Naming::Longest.names(random, 1, &[]).remove(0);
        name.truncate(random.within(least, most));
        name
    })
}

/// 32 different names that begin with the same eleven bytes.
fn alike(random: &mut Random) -> Vec<Name> {
    different(32, || {
        format!("event_name_{:03}", random.below(1_000)).into_bytes()
    })
}

/// So many different ones of the names drawn.
fn different(count: usize, mut draw: impl FnMut() -> Name) -> Vec<Name> {
    let mut names = Vec::new();
    while names.len() < count {
        let name = draw();
        if !names.contains(&name) {
            names.push(name);
        }
    }
    names
}

/// The tokens as a text of 16,384 bytes, with the separators spread evenly among them.
fn filled(tokens: &[Vec<u8>]) -> Vec<u8> {
    let bytes: usize = tokens.iter().map(Vec::len).sum();
    let separators = MAX_TEXT_BYTES - bytes;
    let gaps = tokens.len() - 1;
    assert!(separators >= gaps, "{bytes} bytes, {gaps} gaps");
    let mut text = tokens[0].clone();
    for (gap, token) in tokens[1..].iter().enumerate() {
        let count = separators * (gap + 1) / gaps - separators * gap / gaps;
        text.extend(b" \n\t ".iter().cycle().take(count));
        text.extend(token);
    }
    assert_eq!(text.len(), MAX_TEXT_BYTES);
    text
}

/// A reader, the library's or one in safe Rust.
type Read = fn(&[u8], &mut [u8], &mut [u8], &mut [u64; 2]) -> u32;

/// What a reader gives: the refusal, `out`, and both areas.
type Given = (u32, [u64; 2], Vec<u8>, Vec<u8>);

fn given(read: Read, text: &[u8], areas: [usize; 2]) -> Given {
    let (mut image, mut names) = (vec![0xaa; areas[0]], vec![0xbb; areas[1]]);
    let mut out = [u64::MAX; 2];
    let refusal = read(text, &mut image, &mut names, &mut out);
    (refusal, out, image, names)
}

/// What the reference says that a reader must give.
fn wanted(text: &[u8], areas: [usize; 2]) -> Given {
    let (mut image, mut names) = (vec![0xaa; areas[0]], vec![0xbb; areas[1]]);
    match naive::read_rules(text, areas[0], areas[1]) {
        Ok(reading) => {
            let read = reading.image();
            image[..read.len()].copy_from_slice(&read);
            names[..NAME_AREA].copy_from_slice(&reading.slots());
            (0, [read.len() as u64, 0], image, names)
        }
        Err(refused) => (refused.refusal, [0, refused.place as u64], image, names),
    }
}

/// The readers, the library's first.
const READERS: [Read; SIDES] = [
    raw::read_rules,
    plain::reader::read_rules,
    tuned::reader::read_rules,
    #[cfg(feature = "before")]
    before::read_rules,
];

/// Reads one text of a pool after another into areas that stay the same.
struct Reading {
    texts: Pool<Vec<u8>>,
    image: Vec<u8>,
    names: Vec<u8>,
    /// What each read must give.
    refusal: u32,
    out: [u64; 2],
}

impl Reading {
    fn new(texts: Vec<Vec<u8>>) -> Reading {
        let (refusal, out, image, names) = wanted(&texts[0], [IMAGE_AREA, NAME_AREA]);
        Reading {
            texts: Pool::new(texts),
            image,
            names,
            refusal,
            out,
        }
    }
}

impl Work for Reading {
    fn once(&mut self, side: Side) -> bool {
        let mut out = [0; 2];
        let refusal = READERS[side](
            black_box(self.texts.next(side)),
            black_box(&mut self.image),
            black_box(&mut self.names),
            &mut out,
        );
        refusal == self.refusal && out == self.out
    }

    fn expect_agreement(&mut self) {
        for text in self.texts.all() {
            let wanted = wanted(text, [IMAGE_AREA, NAME_AREA]);
            assert!((wanted.0, wanted.1) == (self.refusal, self.out));
            for read in READERS {
                assert!(given(read, text, [IMAGE_AREA, NAME_AREA]) == wanted);
            }
        }
        let (.., image, names) = wanted(self.texts.last(), [IMAGE_AREA, NAME_AREA]);
        assert!(self.image == image && self.names == names);
    }
}

#[cfg(test)]
mod tests {
    use super::*;
    use reference::random::{Habit, Shape};
    use reference::texts::{self, Spacing};

    /// Compares all sides with the reference, and returns the refusal.
    fn compare(text: &[u8], areas: [usize; 2]) -> u32 {
        let wanted = wanted(text, areas);
        for (side, read) in READERS.into_iter().enumerate() {
            assert!(
                given(read, text, areas) == wanted,
                "side {side}, refusal {}, place {}: {}",
                wanted.0,
                wanted.1[1],
                text.escape_ascii()
            );
        }
        wanted.0
    }

    /// Each side is what the reference says, so that all sides of a race do the same work.
    #[test]
    fn sides_are_the_reference() {
        let mut random = Random::new(31);
        let mut seen = [0; 7];
        let mut count = |refusal: u32| seen[refusal as usize] += 1;
        for round in 0..3_000 {
            let mut set = match round % 3 {
                0 => Shape::ALL[random.below(Shape::ALL.len())].rule_set(&mut random),
                1 => Habit::ALL[random.below(Habit::ALL.len())].rule_set(&mut random),
                _ => reference::random::full(&mut random, 32, 32),
            };
            if random.once_in(2) {
                set = reference::random::with_marks(&mut random, set);
            }
            let naming = Naming::ALL[random.below(Naming::ALL.len())];
            let spacing = Spacing::ALL[random.below(Spacing::ALL.len())];
            let mut text = texts::write(&mut random, &set, naming, spacing).text;
            let longer = random.within(0, 3);
            count(compare(&text, [IMAGE_AREA + longer, NAME_AREA + longer]));
            count(compare(&text, [IMAGE_AREA - 1, NAME_AREA]));
            count(compare(&text, [IMAGE_AREA, NAME_AREA - 1]));
            for _ in 0..10 {
                let place = random.below(text.len());
                let byte = b" \n.->#^abyzAZ09_@[`{/:\0\x0b\xff"[random.below(24)];
                let before = text.clone();
                match random.below(4) {
                    0 => text[place] = byte,
                    1 => text.insert(place, byte),
                    2 => drop(text.remove(place)),
                    _ => text.truncate(place),
                }
                count(compare(&text, [IMAGE_AREA, NAME_AREA]));
                if random.once_in(2) {
                    text = before;
                }
                if text.is_empty() {
                    break;
                }
            }
        }
        // An event named twice.
        for text in ["events a a .", "events a b c b"] {
            count(compare(text.as_bytes(), [IMAGE_AREA, NAME_AREA]));
        }
        assert!(seen.iter().all(|&count| count > 0), "{seen:?}");
        for text in kinds().iter().flat_map(|(_, texts)| texts) {
            compare(text, [IMAGE_AREA, NAME_AREA]);
        }
    }

    /// Each limit, with as many and with one more.
    #[test]
    fn limits() {
        let areas = [IMAGE_AREA, NAME_AREA];
        for count in [1, 7, 8, 9, 13, 14, 15, 24, 25, 31, 32, 33, 63, 64, 65] {
            let names = |prefix: &str| -> Vec<String> {
                (0..count)
                    .map(|number| format!("{prefix}{number}"))
                    .collect()
            };
            let words: Vec<String> = names("a -> #w");
            for text in [
                format!("events {} .", names("n").join(" ")),
                format!("events a . {} -> a .", "a ".repeat(count)),
                format!("events a . ^ {} -> a .", "a ".repeat(count)),
                format!("events a . {} ^ -> a .", "a ".repeat(count)),
                format!("events a . a -> {} .", "a ".repeat(count)),
                format!("events a . {}", "a -> a . ".repeat(count)),
                format!("events a . {}", "^ a -> a . ".repeat(count)),
                format!("events a . {} ^", "a -> a . ".repeat(count)),
                format!("events a . {} ^ ^", "a -> a . ".repeat(count)),
                format!("events a . {} ^ ->", "a -> a . ".repeat(count)),
                format!("events a . {} .", words.join(" . ")),
                format!("events {} .", "n".repeat(count)),
                format!("events a . a -> #{} .", "n".repeat(count)),
            ] {
                compare(text.as_bytes(), areas);
            }
        }
        for length in [MAX_TEXT_BYTES, MAX_TEXT_BYTES + 1] {
            let mut text = vec![b' '; length];
            compare(&text, areas);
            text[..10].copy_from_slice(b"events a .");
            compare(&text, areas);
        }
    }

    /// The first kind is the sample, one text, and the second has many with the same rules. The
    /// texts of a kind all differ, and have all their symbols in use. Those of the last kind break
    /// at their last token, and all others are good.
    #[test]
    fn the_texts_measured() {
        let mut kinds = kinds();
        let (_, broken) = kinds.pop().expect("a kind");
        for text in broken {
            assert_eq!(text.len(), MAX_TEXT_BYTES);
            let (refusal, [_, place], ..) = wanted(&text, [IMAGE_AREA, NAME_AREA]);
            assert_eq!((refusal, place as usize), (4, MAX_TEXT_BYTES - 2));
        }
        for (kind, (name, mut texts)) in kinds.into_iter().enumerate() {
            for text in &texts {
                let reading = naive::read_rules(text, IMAGE_AREA, NAME_AREA).expect(name);
                let symbols = if kind < 2 { 4 } else { 32 };
                assert_eq!(reading.symbols.len(), symbols, "{name}");
                assert!(kind >= 2 || reading.set == sample(), "{name}");
            }
            let count = texts.len();
            assert!(
                if kind == 0 { count == 1 } else { count >= 32 },
                "{name}: {count}"
            );
            texts.sort();
            texts.dedup();
            assert_eq!(texts.len(), count, "{name}");
        }
    }
}
