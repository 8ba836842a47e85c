/*!
The monitor, tuned: as fast as we could make safe Rust.

The steps are the library's. What differs: symbols put back are not counted, but computed from the
numbers of steps, events and waiting symbols; fuel is counted down, and whether something waits is
looked at only after a step that put nothing back; the state is read from its area at each step;
right sides are put back from the last symbol to the first; wrong states are gathered and looked at
once.
*/

use crate::shared::monitor::{self, Kind, Monitor, FULL, LAST, QUIET, ROOM, SPENT};
use crate::tuned::tables;
use std::ops::BitOr;

/// The tuned monitor.
pub struct Tuned;

impl Kind for Tuned {
    type Rules<'a> = Rules<'a>;
}

/// A valid image and its table, taken apart.
pub struct Rules<'a> {
    image: &'a [u8],
    /// The image by fours: its header, then the contents of each rule, at its match word.
    entries: &'a [[u8; 4]],
    /// S, the number of symbols.
    symbols: usize,
    /// The match words.
    matches: &'a [u16],
    /// The rows of next states.
    rows: &'a [u16],
}

impl Rules<'_> {
    /// Where each rule's right side begins in the image. Apart from the rest, so that the rest can
    /// stay in registers.
    fn places(&self) -> [u16; 64] {
        let contents = monitor::Rules::contents(self);
        let mut places = [0; 64];
        let mut begin = 4 + 4 * contents.len() as u16;
        for (place, &[left, kind, right, _]) in places.iter_mut().zip(contents) {
            begin += u16::from(left);
            *place = begin;
            if kind == 0 {
                begin += u16::from(right);
            }
        }
        places
    }
}

impl<'a> monitor::Rules<'a> for Rules<'a> {
    fn check_table(image: &[u8], table: &[u16]) -> u32 {
        tables::check_table(image, table)
    }

    fn new(image: &'a [u8], table: &'a [u16]) -> Rules<'a> {
        let symbols = usize::from(image[0]);
        let states = usize::from(table[0]);
        let (matches, rows) = table[2..2 + states + states * symbols].split_at(states);
        let (entries, _) = image.as_chunks();
        Rules {
            image,
            entries,
            symbols,
            matches,
            rows,
        }
    }

    fn symbols(&self) -> usize {
        self.symbols
    }

    fn events(&self) -> u8 {
        self.image[3]
    }

    fn contents(&self) -> &'a [[u8; 4]] {
        &self.entries[1..1 + usize::from(self.image[1])]
    }

    fn are_states(&self, symbols: &[u8], words: &[u16]) -> bool {
        // Each word is compared with the one before it. If that is right too, all are. What is
        // wrong is gathered, so that the loop does not stop to look at each.
        let mut before = 0;
        let mut wrong = 0;
        for (&symbol, &word) in symbols.iter().zip(words) {
            let place = usize::from(before) * self.symbols + usize::from(symbol);
            match (self.rows.get(place), self.matches.get(usize::from(word))) {
                (Some(next), Some(match_word)) => wrong |= next ^ word | match_word,
                _ => return false,
            }
            before = word;
        }
        wrong == 0
    }

    fn are_zero(bytes: &[u8], words: &[u16]) -> bool {
        all_zero(bytes) && all_zero(words)
    }

    #[inline(always)]
    fn run_once(monitor: &mut Monitor<'a, Self>, first: u8, fuel: u32) -> [u64; 4] {
        let waiting = monitor.waiting();
        if waiting == 0 {
            return [QUIET, 0, 0, 0];
        }
        let places = monitor.rules.places();
        let mut rewrites = 0;
        let (answer, left) = monitor.run(&places, first, fuel, &mut rewrites);
        let steps = u64::from(fuel - left);
        // Each step takes one waiting symbol.
        let put_back = monitor.waiting() + steps - waiting;
        [answer, steps, rewrites, put_back]
    }

    #[inline(always)]
    fn run_all(
        monitor: &mut Monitor<'a, Self>,
        events: &[u8],
        fuel: u32,
        answers: &mut [u8],
    ) -> [u64; 5] {
        let waiting = monitor.waiting();
        let places = monitor.rules.places();
        let mut steps = 0;
        let mut rewrites = 0;
        let [stop, accepted] = monitor.take_each(events, answers, |monitor, first| {
            let (answer, left) = monitor.run(&places, first, fuel, &mut rewrites);
            steps += u64::from(fuel - left);
            answer
        });
        // Each step takes one waiting symbol, and each event is one.
        let put_back = monitor.waiting() + steps - waiting - accepted;
        [stop, accepted, steps, rewrites, put_back]
    }
}

/// Whether all are 0. The loop takes 64 at once and has no exit, so that it becomes vector code.
fn all_zero<T: Copy + Default + PartialEq + BitOr<Output = T>>(all: &[T]) -> bool {
    let (chunks, rest) = all.as_chunks::<64>();
    let mut sums = [T::default(); 64];
    for chunk in chunks {
        for (sum, &number) in sums.iter_mut().zip(chunk) {
            *sum = *sum | number;
        }
    }
    let or = |all: &[T]| all.iter().fold(T::default(), |sum, &number| sum | number);
    or(&sums) | or(rest) == T::default()
}

impl<'a> Monitor<'a, Rules<'a>> {
    /// Runs, and returns the answer and the fuel that is left. Something waits, first of all
    /// `first`, and no verdict stands.
    ///
    /// Most of the time goes to waiting, so the shape is chosen for that. The symbol that comes
    /// next is kept beside its byte, since a byte just written is read back late. Symbols are taken
    /// off and put back one by one: so the processor guesses how many there are and goes on, where
    /// a subtraction would wait for the lengths.
    #[inline(always)]
    fn run(&mut self, places: &[u16; 64], first: u8, fuel: u32, rewrites: &mut u64) -> (u64, u32) {
        let Monitor {
            rules,
            bytes,
            words,
            ..
        } = self;
        let mut fuel = fuel;
        let mut settled = self.settled;
        let mut begin = self.begin;
        let mut symbol = first;
        let answer = loop {
            if fuel == 0 {
                break SPENT;
            }
            // So that the compiler knows that both are places of the areas.
            assert!(settled <= begin && begin < ROOM);
            let state = if settled == 0 { 0 } else { words[settled - 1] };
            let next = rules.rows[usize::from(state) * rules.symbols + usize::from(symbol)];
            let match_word = rules.matches[usize::from(next)];
            if match_word == 0 {
                fuel -= 1;
                bytes[begin] = 0;
                bytes[settled] = symbol;
                words[settled] = next;
                begin += 1;
                settled += 1;
                if begin == ROOM {
                    break QUIET;
                }
                symbol = bytes[begin];
            } else {
                let [left, kind, right, _] = rules.entries[usize::from(match_word)];
                // There are `begin - settled` free places. The symbols taken off make more.
                if kind == 0 && usize::from(right) > begin - settled + usize::from(left) {
                    break FULL;
                }
                fuel -= 1;
                *rewrites += 1;
                bytes[begin] = 0;
                begin += 1;
                // All but the last one, which is not settled yet: at most seven.
                for taken in 1..8 {
                    if left <= taken {
                        break;
                    }
                    settled -= 1;
                    bytes[settled & LAST] = 0;
                    words[settled & LAST] = 0;
                }
                if kind == 1 {
                    self.verdict = u64::from(right) + 1;
                    self.rule = u64::from(match_word) - 1;
                    break 16 + u64::from(right);
                }
                if right == 0 {
                    if begin == ROOM {
                        break QUIET;
                    }
                    symbol = bytes[begin];
                } else {
                    let place = usize::from(places[usize::from(match_word - 1) & 63]);
                    let right = &rules.image[place..][..usize::from(right)];
                    // The last first, so that what comes next is at hand at the end.
                    for &back in right.iter().rev().take(8) {
                        begin -= 1;
                        bytes[begin & LAST] = back;
                        symbol = back;
                    }
                }
            }
        };
        self.settled = settled;
        self.begin = begin;
        (answer, fuel)
    }
}
