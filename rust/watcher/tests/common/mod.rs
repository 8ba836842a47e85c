//! What the tests share: one call of the library, compared in everything that it may change.

// Each test file uses some of these.
#![allow(dead_code)]

pub mod calls;
pub mod edge;
pub mod list;
pub mod texts;

use reference::RuleSet;

/// The text of document 01's sample: lock take → held; held free → empty; take → fail.
pub const SAMPLE: &[u8] =
    b"events lock take free . lock take -> held . held free -> #epsilon . take -> #fail .";

/// Its image. The symbols are lock, take, free, held.
pub const SAMPLE_IMAGE: [u8; 22] = [
    4, 3, 2, 3, // four symbols, three rules, two verdicts, three events
    2, 0, 1, 0, // two symbols become a string of one
    2, 0, 0, 0, // two symbols become a string of none
    1, 1, 0, 0, // one symbol becomes verdict 0
    0, 1, // lock take
    3, // held
    3, 2, // held free
    1, // take
];

/// Words kept on both sides of a lent area, which no call may touch.
const MARGIN: usize = 8;

/// What an area holds before a call. No word has the same value in both patterns, so a word that was
/// not written differs from the one expected in at least one of them.
fn pattern(len: usize, inverted: bool) -> Vec<u16> {
    let mask = if inverted { 0xffff } else { 0 };
    (0..len)
        .map(|place| (place as u16).wrapping_mul(40_503).wrapping_add(0x5a5a) ^ mask)
        .collect()
}

/// Compiles into an area of `area` words and expects these words or this refusal. Every word of the
/// area and of the margins around it is compared, and the word of `out`.
#[track_caller]
pub fn expect_compile(image: &[u8], area: usize, expected: Result<&[u16], u32>) {
    for inverted in [false, true] {
        let mut buffer = pattern(MARGIN + area + MARGIN, inverted);
        let mut wanted = buffer.clone();
        if let Ok(words) = expected {
            wanted[MARGIN..][..words.len()].copy_from_slice(words);
        }
        let lent = &mut buffer[MARGIN..][..area];
        if inverted {
            let found = watcher::compile(image, lent).map_err(|refusal| refusal.number());
            assert_eq!(
                found,
                expected.map(<[u16]>::len),
                "area {area}, image {image:?}"
            );
        } else {
            let mut out = [u64::MAX];
            let found = watcher::raw::compile(image, lent, &mut out);
            let (refusal, written) = match expected {
                Ok(words) => (0, words.len() as u64),
                Err(refusal) => (refusal, 0),
            };
            assert_eq!(
                (found, out),
                (refusal, [written]),
                "area {area}, image {image:?}"
            );
        }
        if let Some(place) = (0..buffer.len()).find(|&place| buffer[place] != wanted[place]) {
            panic!(
                "word {} of an area of {area} is {}, not {}; image {image:?}",
                place as isize - MARGIN as isize,
                buffer[place],
                wanted[place]
            );
        }
    }
}

/// Checks a table and expects this result.
#[track_caller]
pub fn expect_check(image: &[u8], table: &[u16], expected: Result<(), u32>) {
    let found = watcher::check_table(image, table).map_err(|refusal| refusal.number());
    if found != expected {
        panic!("{found:?}, not {expected:?}: image {image:?}, table {table:?}");
    }
}

/// A rule set with what the reference says about it.
pub struct Case {
    /// The rule set.
    pub set: RuleSet,
    /// Its image.
    pub image: Vec<u8>,
    /// Its table.
    pub table: Vec<u16>,
}

impl Case {
    /// The case of a rule set in range.
    pub fn new(set: RuleSet) -> Case {
        let image = reference::encode(&set);
        assert_eq!(reference::parse(&image).as_ref(), Ok(&set));
        let table = reference::table(&set);
        Case { set, image, table }
    }

    /// N, the number of states.
    pub fn states(&self) -> usize {
        self.table[0].into()
    }

    /// Expects what the reference says of compiling into an area of `area` words.
    #[track_caller]
    pub fn compile_into(&self, area: usize) {
        if area < self.table.len() {
            expect_compile(&self.image, area, Err(reference::SHORT_AREA));
        } else {
            expect_compile(&self.image, area, Ok(&self.table));
        }
    }

    /// Expects that `words` is accepted if it begins with the table, and says whether it does.
    #[track_caller]
    pub fn check(&self, words: &[u16]) -> bool {
        let begins = words.starts_with(&self.table);
        let expected = if begins {
            Ok(())
        } else {
            Err(reference::OTHER_TABLE)
        };
        expect_check(&self.image, words, expected);
        begins
    }
}
