//! Rule texts damaged byte by byte, cut at every place, and made of random bytes.

mod common;

use common::texts::{read, Tally};
use common::SAMPLE;
use reference::random::{self, Habit, Random};
use reference::texts::{self, Naming, Spacing};
use watcher::MAX_TEXT_BYTES;

/// Bytes that mean something in a text, the neighbours of letters and digits, and bytes that mean
/// nothing.
const BYTES: &[u8] =
    b" \t\r\n#.->^az_AZ09es%@[`{/:,!\0\x08\x0b\x0c\x0e\x1f\x7f\x80\x85\xa0\xc3\xe9\xff";

/// Some of them.
const FEW: &[u8] = b" #.->^aZ_9\0\xff";

/// Texts of many kinds, none of them long.
fn texts() -> Vec<Vec<u8>> {
    let mut random = Random::new(3_001);
    let mut all = vec![
        b"events a .".to_vec(),
        b" events a b\t. a -> #x . b a -> a b .\r\n".to_vec(),
        b"events a b . ^ a -> #x . ^\tb a -> a b . a -> a .".to_vec(),
        b"events e . e e e e e e e e -> e e e e e e e e . e -> #succeed .".to_vec(),
        b"events abcdefghijklmnopqrstuvwx . abcdefghijklmnopqrstuvwx -> #abcdefghijklmnopqrstuvwx ."
            .to_vec(),
    ];
    for naming in Naming::ALL {
        let spacing = [Spacing::One, Spacing::Few][random.below(2)];
        let mut set = Habit::Mixed.either(&mut random);
        set.rules.truncate(4);
        all.push(texts::write(&mut random, &set, naming, spacing).text);
    }
    all
}

/// Reads the text with one byte changed, dropped, doubled, exchanged or added, at each of these places.
fn damage(text: &[u8], places: impl Iterator<Item = usize>, bytes: &[u8], tally: &mut Tally) {
    for place in places {
        let (before, after) = text.split_at(place);
        for &byte in bytes {
            tally.add(&read(&[before, &[byte], after].concat()));
        }
        let [first, rest @ ..] = after else {
            continue;
        };
        tally.add(&read(&[before, rest].concat()));
        tally.add(&read(&[before, &[*first], after].concat()));
        for &byte in bytes {
            tally.add(&read(&[before, &[byte], rest].concat()));
        }
        if let [second, rest @ ..] = rest {
            tally.add(&read(&[before, &[*second, *first], rest].concat()));
        }
    }
}

#[test]
fn sample_with_every_byte_everywhere() {
    let mut tally = Tally::default();
    let bytes: Vec<u8> = (0..=255).collect();
    damage(SAMPLE, 0..=SAMPLE.len(), &bytes, &mut tally);
    tally.expect(5_000, [20_000, 500, 0, 0]);
}

#[test]
fn texts_with_one_byte_damaged() {
    let mut tally = Tally::default();
    for text in texts() {
        assert!(read(&text).is_ok());
        damage(&text, 0..=text.len(), BYTES, &mut tally);
    }
    tally.expect(10_000, [20_000, 1_000, 5, 5]);
}

/// Texts at the limits: a byte that cuts a name in two or joins two may pass or keep one.
#[test]
fn full_texts_with_one_byte_damaged() {
    let mut random = Random::new(3_002);
    let mut tally = Tally::default();
    for naming in [Naming::Short, Naming::Any] {
        let mut set = random::full(&mut random, 32, 32);
        set.events = 20;
        // A rule behind the others would be one too many.
        let text = texts::write(&mut random, &set, naming, Spacing::One).text;
        assert!(naming == Naming::Any || read(&text).is_ok());
        let text = &text[..text.len().min(MAX_TEXT_BYTES - 1)];
        for _ in 0..60 {
            let place = random.within(0, text.len());
            damage(text, place..=place, FEW, &mut tally);
        }
        // At every place one byte changed, dropped and added.
        for place in 0..text.len() {
            damage(
                text,
                place..=place,
                &[FEW[random.below(FEW.len())]],
                &mut tally,
            );
        }
    }
    tally.expect(100, [1_000, 20, 500, 0]);
}

/// Two damages at once.
#[test]
fn texts_with_two_bytes_damaged() {
    let mut random = Random::new(3_003);
    let mut tally = Tally::default();
    for text in texts() {
        for _ in 0..2_000 {
            let mut text = text.clone();
            for _ in 0..2 {
                let place = random.below(text.len());
                let byte = BYTES[random.below(BYTES.len())];
                match random.below(4) {
                    0 => text[place] = byte,
                    1 => text.insert(place, byte),
                    2 if text.len() > 1 => drop(text.remove(place)),
                    _ => {
                        let other = random.below(text.len());
                        text.swap(place, other);
                    }
                }
            }
            tally.add(&read(&text));
        }
    }
    tally.expect(1_000, [5_000, 1_000, 1, 1]);
}

/// Each text cut at every byte, from either end. A cut text is a slice of the whole one, which is read
/// as it stands there, so that a byte read behind the end would be believed.
#[test]
fn texts_cut_at_every_byte() {
    let mut tally = Tally::default();
    let mut all = texts();
    all.push(SAMPLE.to_vec());
    for text in all {
        for place in 0..=text.len() {
            let wanted = read(&text[..place]);
            tally.add(&wanted);
            tally.add(&read(&text[place..]));
            let (mut image, mut names) = ([0; 1_284], [0; 1_200]);
            let found = watcher::read_rules(&text[..place], &mut image, &mut names);
            match (found, wanted) {
                (Ok(length), Ok(reading)) => {
                    assert_eq!(image[..length], reading.image());
                    assert_eq!(names[..], reading.slots());
                }
                (Err(found), Err(wanted)) => {
                    assert_eq!(
                        (found.refusal.number(), found.place),
                        (wanted.refusal, wanted.place)
                    );
                    assert_eq!((image, names), ([0; 1_284], [0; 1_200]));
                }
                (found, wanted) => panic!("{found:?}, not {wanted:?}"),
            }
        }
    }
    // A text may end behind each `.`, and breaks elsewhere.
    tally.expect(50, [20, 1_000, 0, 0]);
}

/// A long text cut at every byte.
#[test]
fn long_text_cut() {
    let mut random = Random::new(3_004);
    let set = random::full(&mut random, 32, 32);
    let text = texts::write(&mut random, &set, Naming::Any, Spacing::Few).text;
    let text = &text[..text.len().min(MAX_TEXT_BYTES)];
    assert!(text.len() > 10_000);
    let mut tally = Tally::default();
    for place in 0..=text.len() {
        tally.add(&read(&text[..place]));
    }
    // A name cut short may be a symbol too many.
    tally.expect(5, [0, 300, 300, 0]);
}

/// Bytes drawn from some, behind a beginning that is good so far.
#[test]
fn random_bytes() {
    let mut random = Random::new(3_005);
    let mut tally = Tally::default();
    let every: Vec<u8> = (0..=255).collect();
    let alphabets: [&[u8]; 4] = [
        b"ab   \n..->#^^",
        b"a b.",
        b"  \t\t\r\r\n\nevntsab.->##_9\0\x0b",
        &every,
    ];
    let begins: [&[u8]; 7] = [
        b"",
        b"events ",
        b"events a b . ",
        b"events a b . a b ",
        b"events a b . a -> ",
        b"events a b . a -> b . ",
        b"events a b . ^ ",
    ];
    for round in 0..200_000 {
        let mut text = begins[random.below(begins.len())].to_vec();
        let alphabet = alphabets[round % alphabets.len()];
        let length = match random.below(20) {
            0 => random.within(0, 400),
            _ => random.within(0, 20),
        };
        text.extend((0..length).map(|_| alphabet[random.below(alphabet.len())]));
        tally.add(&read(&text));
    }
    tally.expect(3_000, [100_000, 30_000, 0, 200]);
}
