/*!
Times the library beside programs from outside.

* Tables: compile, against the crate `aho-corasick`, which builds an automaton of the same left
  sides. Both are then asked where left sides end in a long string, and must agree.
* Swaps: how many rewrites a second the library makes on the string that `swaps.maude` has for
  Maude.

The sides take turns in short rounds, another one going first from round to round, and medians are
shown.
*/

#![forbid(unsafe_code)]

use aho_corasick::{AhoCorasick, AhoCorasickBuilder, MatchKind};
use reference::random::{largest, sample, Random};
use reference::{string, RuleSet, Symbol};
use std::collections::BTreeSet;
use std::hint::black_box;
use std::time::{Duration, Instant};
use watcher::raw;

/// Rounds of each race.
const ROUNDS: usize = 301;
/// How long the calls of one side take in a round, at least.
const TURN: Duration = Duration::from_micros(150);
/// How often each of the three symbols stands in the string that is sorted.
const EACH: usize = 200;
/// The most fuel that a call takes.
const MUCH: u32 = 65_535;

fn main() {
    println!("Nanoseconds to make a table or an automaton, median of {ROUNDS} rounds.\n");
    println!(
        "{:<36} {:>8} {:>8} {:>8}",
        "left sides", "library", "DFA", "NFA"
    );
    for (name, set) in [
        ("the sample: 3", sample()),
        ("the largest table: 64 of 8 symbols", largest()),
    ] {
        let [library, dfa, nfa] = measure_tables(&set);
        println!("{name:<36} {library:>8.0} {dfa:>8.0} {nfa:>8.0}");
    }
    let (rewrites, seconds) = measure_swaps();
    println!(
        "\nSwaps: {rewrites} rewrites in {:.2} ms, {:.1} million a second, median of {ROUNDS}.",
        seconds * 1e3,
        rewrites as f64 / seconds / 1e6
    );
}

/// The automaton of these left sides, with rows of next states or with failure links. Every left
/// side is a pattern of bytes; all matches are wanted. The rest is as the crate has it.
fn automaton(lefts: &[&[Symbol]], rows: bool) -> AhoCorasick {
    AhoCorasickBuilder::new()
        .match_kind(MatchKind::Standard)
        .dfa(rows)
        .build(lefts)
}

/// The times of one compile and of building a DFA and an NFA.
fn measure_tables(set: &RuleSet) -> [f64; 3] {
    let image = reference::encode(set);
    let lefts: Vec<&[Symbol]> = set.rules.iter().map(|rule| &rule.left[..]).collect();
    let mut table = vec![0; watcher::MAX_TABLE_WORDS];
    expect_agreement(set, &image, &lefts, &mut table);
    medians([
        &mut || watcher::compile(black_box(&image), black_box(&mut table)).is_ok(),
        &mut || automaton(black_box(&lefts), true).pattern_count() == lefts.len(),
        &mut || automaton(black_box(&lefts), false).pattern_count() == lefts.len(),
    ])
}

/// Expects that table and automata find left sides to end at the same places of a string.
fn expect_agreement(set: &RuleSet, image: &[u8], lefts: &[&[Symbol]], table: &mut [u16]) {
    watcher::compile(image, table).expect("a good image");
    let mut random = Random::new(1);
    let mut text = random.string(1_000, set.symbols);
    for _ in 0..1_000 {
        text.extend(lefts[random.below(lefts.len())]);
    }
    let (states, symbols) = (usize::from(table[0]), usize::from(set.symbols));
    let mut state = 0;
    let mut ends = BTreeSet::new();
    for (place, &symbol) in text.iter().enumerate() {
        state = usize::from(table[2 + states + state * symbols + usize::from(symbol)]);
        if table[2 + state] != 0 {
            ends.insert(place + 1);
        }
    }
    assert!(ends.len() >= 1_000);
    for rows in [true, false] {
        let automaton = automaton(lefts, rows);
        let found = automaton.find_overlapping_iter(&text);
        assert_eq!(ends, found.map(|found| found.end()).collect());
    }
}

/// The median time of one call of each side, in nanoseconds.
fn medians<const N: usize>(mut sides: [&mut dyn FnMut() -> bool; N]) -> [f64; N] {
    let mut turn = |side: usize, calls: u32| {
        let start = Instant::now();
        for _ in 0..calls {
            assert!(black_box(sides[side]()));
        }
        start.elapsed()
    };
    let mut calls = [1; N];
    for (side, calls) in calls.iter_mut().enumerate() {
        // The fastest of a few turns, since one may be interrupted.
        while (0..5).map(|_| turn(side, *calls)).min() < Some(TURN) {
            *calls *= 2;
        }
    }
    let mut times = [(); N].map(|()| Vec::with_capacity(ROUNDS));
    for round in 0..ROUNDS {
        for place in 0..N {
            let side = (round + place) % N;
            let time = turn(side, calls[side]).as_secs_f64();
            times[side].push(time * 1e9 / f64::from(calls[side]));
        }
    }
    times.map(|mut times| {
        times.sort_unstable_by(f64::total_cmp);
        times[ROUNDS / 2]
    })
}

/// The rewrites that sort the string, and the median time in seconds.
fn measure_swaps() -> (u64, f64) {
    let set = RuleSet {
        symbols: 3,
        events: 3,
        verdicts: 2,
        rules: vec![
            string(&[1, 0], &[0, 1]),
            string(&[2, 0], &[0, 2]),
            string(&[2, 1], &[1, 2]),
        ],
    };
    let image = reference::encode(&set);
    let table = reference::table(&set);
    let word = [[2; EACH], [1; EACH], [0; EACH]].concat();
    let mut rewrites = 0;
    let [nanoseconds] = medians([&mut || {
        let sorted = sort(&image, &table, &word);
        rewrites = sorted.1;
        sorted.0 == [[0; EACH], [1; EACH], [2; EACH]].concat()
    }]);
    (rewrites, nanoseconds / 1e9)
}

/// Offers a word to a fresh monitor in a batch, goes on until it is quiet, and returns its string
/// and the rewrites that were made.
fn sort(image: &[u8], table: &[u16], word: &[Symbol]) -> (Vec<Symbol>, u64) {
    let (mut head, mut bytes, mut words) = ([0; 4], [0; 2_048], [0; 2_048]);
    let (mut answers, mut out) = (vec![0; word.len()], [0; 5]);
    let (head, bytes, words) = (&mut head, &mut bytes, &mut words);
    let refusal = raw::batch(
        image,
        table,
        head,
        bytes,
        words,
        word,
        MUCH,
        &mut answers,
        &mut out,
    );
    assert_eq!((refusal, out[1]), (0, word.len() as u64));
    let mut rewrites = out[3];
    while head[1] > 0 {
        let mut out = [0; 4];
        assert_eq!(
            raw::go_on(image, table, head, bytes, words, MUCH, &mut out),
            0
        );
        rewrites += out[2];
    }
    (bytes[..head[0] as usize].to_vec(), rewrites)
}
