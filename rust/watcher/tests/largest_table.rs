//! The largest table, 514 states and 16,964 words, and what is refused 9 in its place: every word changed,
//! next states far out of range among them, rows exchanged, words missing. Words behind it are not read.

mod common;

use common::edge::Edge;
use common::Case;
use reference::random::{self, Random};
use watcher::raw;

/// The states of the largest table.
const STATES: usize = 514;
/// The symbols of its rule set, and the words of a row.
const SYMBOLS: usize = 32;
/// Its words.
const WORDS: usize = 16_964;
/// A word that is far from any state and any rule.
const FAR: u16 = 65_535;

/// The rule sets with the largest table: the two rules that begin with a symbol, one of them marked.
fn largest() -> Vec<Case> {
    let first = random::largest_with_marks();
    let mut sets = vec![first.clone(), first.clone(), first];
    for symbol in 0..SYMBOLS {
        // The second half is marked; or now the one, now the other.
        sets[1].rules.swap(symbol, symbol + SYMBOLS);
        if symbol % 3 == 1 {
            sets[2].rules.swap(symbol, symbol + SYMBOLS);
        }
    }
    // With one event alone, most rows are reached by none.
    sets[2].events = 1;
    let cases: Vec<Case> = sets.into_iter().map(Case::new).collect();
    for case in &cases {
        assert_eq!((case.states(), case.table.len()), (STATES, WORDS));
    }
    cases
}

/// The first of them.
fn one() -> Case {
    largest().swap_remove(0)
}

/// Where the word for the next state of `q` on `symbol` is.
fn place(q: usize, symbol: usize) -> usize {
    2 + STATES + q * SYMBOLS + symbol
}

/// All pairs of states.
fn pairs() -> impl Iterator<Item = (usize, usize)> {
    (0..STATES).flat_map(|q| (0..q).map(move |p| (p, q)))
}

/// What a call is lent of a monitor.
#[derive(Clone, Copy, PartialEq)]
struct Memory {
    head: [u64; 4],
    bytes: [u8; 2_048],
    words: [u16; 2_048],
}

/// Calls without fuel, with one image, each from the same monitor, in which one symbol waits.
struct Calls<'a> {
    image: &'a [u8],
    begin: Memory,
    /// The monitor behind an event that was taken.
    offered: Memory,
}

impl Calls<'_> {
    const EVENT: u8 = 0;
    const WAITING: u8 = 5;
    /// Every call is refused by 9.
    const REFUSED: [u32; 3] = [9; 3];
    /// No call is refused.
    const TAKEN: [u32; 3] = [0; 3];

    fn new(case: &Case) -> Calls<'_> {
        let holding = |waiting: &[u8]| {
            let mut bytes = [0; 2_048];
            bytes[2_048 - waiting.len()..].copy_from_slice(waiting);
            Memory {
                head: [0, waiting.len() as u64, 0, 0],
                bytes,
                words: [0; 2_048],
            }
        };
        Calls {
            image: &case.image,
            begin: holding(&[Self::WAITING]),
            offered: holding(&[Self::WAITING, Self::EVENT]),
        }
    }

    /// The refusals of a go-on, an offer and a batch of one event with this table. Expects that one that is
    /// not refused answers Spent, and that a refusal tells and changes nothing.
    #[track_caller]
    fn refusals(&self, table: &[u16]) -> [u32; 3] {
        let mut memory = self.begin;
        let Memory { head, bytes, words } = &mut memory;
        let mut out = [9; 4];
        let go_on = raw::go_on(self.image, table, head, bytes, words, 0, &mut out);
        assert_eq!(out, [u64::from(go_on == 0), 0, 0, 0], "go on");
        assert!(memory == self.begin, "go on");

        let mut memory = self.begin;
        let Memory { head, bytes, words } = &mut memory;
        let (event, mut out) = (Self::EVENT, [9; 4]);
        let offer = raw::offer(self.image, table, head, bytes, words, event, 0, &mut out);
        assert_eq!(out, [u64::from(offer == 0), 0, 0, 0], "offer");
        assert!(memory == *self.behind(offer), "offer");

        let mut memory = self.begin;
        let Memory { head, bytes, words } = &mut memory;
        let (events, mut answers, mut out) = ([event], [0x77; 2], [9; 5]);
        let batch = raw::batch(
            self.image,
            table,
            head,
            bytes,
            words,
            &events,
            0,
            &mut answers,
            &mut out,
        );
        assert_eq!(out, [0, u64::from(batch == 0), 0, 0, 0], "batch");
        assert_eq!(answers, [if batch == 0 { 1 } else { 0x77 }, 0x77], "batch");
        assert!(memory == *self.behind(batch), "batch");
        [go_on, offer, batch]
    }

    /// The monitor behind an offer with this refusal or none.
    fn behind(&self, refusal: u32) -> &Memory {
        if refusal == 0 {
            &self.offered
        } else {
            &self.begin
        }
    }
}

/// It is the largest: a mark more or fewer, and two rules share their first symbol again.
#[test]
fn the_largest_tables() {
    let mut seen: Vec<Vec<u16>> = Vec::new();
    for case in largest() {
        for area in [0, 16_931, 16_932, 16_963, 16_964, 16_965, 65_536 + 16_963] {
            case.compile_into(area);
        }
        assert!(case.check(&case.table));
        assert_eq!(Calls::new(&case).refusals(&case.table), Calls::TAKEN);
        assert!(!seen.contains(&case.table));
        seen.push(case.table);
    }
    for rule in [0, 31, 32, 63] {
        let mut set = random::largest_with_marks();
        set.rules[rule].marked ^= true;
        let case = Case::new(set);
        assert_eq!((case.states(), case.table.len()), (513, 16_931));
        case.compile_into(16_931);
        case.compile_into(16_930);
    }
}

/// Every single word changed, each to several values.
#[test]
fn each_word_changed() {
    let mut random = Random::new(1_202);
    let mut changed = 0;
    for case in largest() {
        let mut table = case.table.clone();
        for place in 0..WORDS {
            let word = table[place];
            let far = [word ^ 0x8000, STATES as u16, FAR, random.word()];
            let near = [word.wrapping_add(1), word.wrapping_sub(1), word ^ 1];
            let state = [0, 1, 513, random.below(STATES) as u16];
            for value in far.into_iter().chain(near).chain(state) {
                table[place] = value;
                assert_eq!(case.check(&table), value == word, "word {place} is {value}");
                changed += usize::from(value != word);
            }
            table[place] = word;
        }
        assert!(table == case.table);
    }
    assert!(changed > 3 * 10 * WORDS, "{changed} changed");
}

/// Every single word changed, to 65,535 and to another near one: each call refuses it.
#[test]
fn calls_with_each_word_changed() {
    let case = one();
    let calls = Calls::new(&case);
    let mut table = case.table.clone();
    for place in 0..WORDS {
        let word = table[place];
        // One more, another state, or the mark alone, which no next state is.
        let near = match place % 3 {
            0 => word + 1,
            1 => (word + 257) % 514,
            _ if word == 0 => 1,
            _ => 0,
        };
        for value in [FAR, near] {
            table[place] = value;
            let refusals = calls.refusals(&table);
            assert_eq!(refusals, Calls::REFUSED, "word {place} is {value}");
        }
        table[place] = word;
    }
    assert_eq!(calls.refusals(&table), Calls::TAKEN);
}

/// Next states of 65,535 in many places at once: in a row, for a symbol, from a state on, up to one.
#[test]
fn many_next_states_far_out_of_range() {
    let case = one();
    let calls = Calls::new(&case);
    let expect_refused = |far: &dyn Fn(usize, usize) -> bool| {
        let mut table = case.table.clone();
        for q in 0..STATES {
            for symbol in 0..SYMBOLS {
                if far(q, symbol) {
                    table[place(q, symbol)] = FAR;
                }
            }
        }
        assert!(!case.check(&table));
        assert_eq!(calls.refusals(&table), Calls::REFUSED);
    };
    for state in 0..STATES {
        expect_refused(&|q, _| q == state);
        expect_refused(&|q, _| q >= state);
        expect_refused(&|q, _| q <= state);
    }
    for column in 0..SYMBOLS {
        expect_refused(&|_, symbol| symbol == column);
        expect_refused(&|q, symbol| q > 1 && symbol == column);
    }
}

/// Each two rows exchanged, and each two match words: refused, unless they are alike.
#[test]
fn each_two_rows_exchanged() {
    let case = one();
    let calls = Calls::new(&case);
    let mut table = case.table.clone();
    let exchange_rows = |table: &mut Vec<u16>, p: usize, q: usize| {
        let (before, after) = table.split_at_mut(place(q, 0));
        before[place(p, 0)..][..SYMBOLS].swap_with_slice(&mut after[..SYMBOLS]);
    };
    let (mut rows, mut words) = ([0; 2], [0; 2]);
    for (p, q) in pairs() {
        exchange_rows(&mut table, p, q);
        let same = case.check(&table);
        rows[usize::from(same)] += 1;
        if q == p + 1 {
            let refusals = if same { Calls::TAKEN } else { Calls::REFUSED };
            assert_eq!(calls.refusals(&table), refusals, "rows {p} and {q}");
        }
        exchange_rows(&mut table, p, q);

        table.swap(2 + p, 2 + q);
        words[usize::from(case.check(&table))] += 1;
        table.swap(2 + p, 2 + q);
    }
    assert!(table == case.table);
    assert!(rows[0] > 100_000 && rows[1] > 50, "{rows:?}");
    assert!(words.iter().all(|&count| count > 10_000), "{words:?}");
}

/// The table cut at every length. What follows the part lent is the rest of the table.
#[test]
fn words_missing() {
    let case = one();
    let calls = Calls::new(&case);
    for length in 0..WORDS {
        assert!(!case.check(&case.table[..length]));
    }
    for length in [0, 1, 2, 516, 16_931, 16_932, 16_962, 16_963] {
        let refusals = calls.refusals(&case.table[..length]);
        assert_eq!(refusals, Calls::REFUSED, "{length} words");
    }
}

/// Whatever stands behind the table, it is taken, and refused where its last word is another.
#[test]
fn words_behind() {
    let case = one();
    let calls = Calls::new(&case);
    let mut random = Random::new(1_203);
    let mut behind: Vec<Vec<u16>> = Vec::new();
    for more in [1, 2, 31, 32, 33, 514, 5_000, 65_536] {
        let words = [0, 1, 513, 514, 0x8000, FAR];
        behind.extend(words.map(|word| vec![word; more]));
        behind.push((0..more).map(|_| random.word()).collect());
    }
    // A row more, all rows, the whole table.
    behind.extend([place(STATES - 1, 0), place(0, 0), 0].map(|from| case.table[from..].to_vec()));
    for behind in behind {
        let mut longer = [&case.table[..], &behind].concat();
        assert!(case.check(&longer));
        assert_eq!(calls.refusals(&longer), Calls::TAKEN);
        longer[WORDS - 1] ^= 1;
        assert!(!case.check(&longer));
        assert_eq!(calls.refusals(&longer), Calls::REFUSED);
    }
}

extern "C" {
    // As in `watcher::raw`, which lends slices alone: all words of a slice can be read.
    fn watcher_check_table(
        image: *const u8,
        image_len: usize,
        table: *const u16,
        table_len: usize,
    ) -> u32;
}

/// Words behind the table that nobody can read, lent with it or not.
#[test]
fn words_behind_that_cannot_be_read() {
    let case = one();
    let check = |words: &[u16], lent: usize| {
        let edge = Edge::new(words);
        let (image, table) = (&case.image, edge.words());
        // SAFETY: the image and the words can be read. What else is lent lies in memory that `edge` keeps for
        // itself; if it is read after all, the system ends the process.
        unsafe { watcher_check_table(image.as_ptr(), image.len(), table.as_ptr(), lent) }
    };
    for behind in [0, 1, 31, 32, Edge::BEHIND] {
        assert_eq!(check(&case.table, WORDS + behind), 0);
    }
    let mut other = case.table.clone();
    other[WORDS - 1] ^= 1;
    assert_eq!(check(&other, WORDS + Edge::BEHIND), 9);
    // A word too few is known from the length alone, so not a word is read behind it.
    assert_eq!(check(&case.table[..WORDS - 1], WORDS - 1), 9);

    let (calls, edge) = (Calls::new(&case), Edge::new(&case.table));
    assert_eq!(calls.refusals(edge.words()), Calls::TAKEN);
    assert_eq!(calls.refusals(&edge.words()[1..]), Calls::REFUSED);
}
