/*!
The monitor, plainly: the library's algorithm in safe Rust.

A run keeps the state and the symbol that comes next, and counts steps, rewrites and symbols put
back as it goes. Before each step it looks whether something waits and whether fuel is left. Right
sides are put back from the first symbol to the last.
*/

use crate::plain::tables;
use crate::shared::monitor::{self, Kind, Monitor, FULL, LAST, QUIET, ROOM, SPENT};
use std::ops::BitOr;

/// The plain monitor.
pub struct Plain;

impl Kind for Plain {
    type Rules<'a> = Rules<'a>;
}

/// What the steps of a run did.
#[derive(Default)]
struct Counts {
    steps: u64,
    rewrites: u64,
    put_back: u64,
}

/// A valid image and its table, taken apart.
pub struct Rules<'a> {
    /// S, the number of symbols.
    symbols: usize,
    /// E, the number of events.
    events: u8,
    /// Four bytes a rule.
    contents: &'a [[u8; 4]],
    /// The sides' symbols.
    bodies: &'a [u8],
    /// The match words.
    matches: &'a [u16],
    /// The rows of next states.
    rows: &'a [u16],
}

impl Rules<'_> {
    /// Where each rule's body begins. Apart from the rest, so that the rest can stay in registers.
    fn places(&self) -> [u16; 64] {
        let mut places = [0; 64];
        let mut begin = 0;
        for (place, &[left, kind, right, _]) in places.iter_mut().zip(self.contents) {
            *place = begin;
            begin += u16::from(left);
            if kind == 0 {
                begin += u16::from(right);
            }
        }
        places
    }
}

impl<'a> monitor::Rules<'a> for Rules<'a> {
    fn check_table(image: &[u8], table: &[u16]) -> u32 {
        tables::check_table(image, table)
    }

    fn new(image: &'a [u8], table: &'a [u16]) -> Rules<'a> {
        let (contents, bodies) = image[4..].split_at(4 * usize::from(image[1]));
        let (contents, _) = contents.as_chunks();
        let symbols = usize::from(image[0]);
        let states = usize::from(table[0]);
        let (matches, rows) = table[2..2 + states + states * symbols].split_at(states);
        Rules {
            symbols,
            events: image[3],
            contents,
            bodies,
            matches,
            rows,
        }
    }

    fn symbols(&self) -> usize {
        self.symbols
    }

    fn events(&self) -> u8 {
        self.events
    }

    fn contents(&self) -> &'a [[u8; 4]] {
        self.contents
    }

    fn are_states(&self, symbols: &[u8], words: &[u16]) -> bool {
        // Each word is compared with the one before it. If that is right too, all are.
        let mut before = 0;
        for (&symbol, &word) in symbols.iter().zip(words) {
            let place = usize::from(before) * self.symbols + usize::from(symbol);
            if self.rows.get(place) != Some(&word) {
                return false;
            }
            if self.matches.get(usize::from(word)) != Some(&0) {
                return false;
            }
            before = word;
        }
        true
    }

    fn are_zero(bytes: &[u8], words: &[u16]) -> bool {
        all_zero::<u8, 64>(bytes) && all_zero::<u16, 32>(words)
    }

    #[inline(always)]
    fn run_once(monitor: &mut Monitor<'a, Self>, first: u8, fuel: u32) -> [u64; 4] {
        let places = monitor.rules.places();
        let (answer, counts) = monitor.run(&places, first, fuel);
        [answer, counts.steps, counts.rewrites, counts.put_back]
    }

    #[inline(always)]
    fn run_all(
        monitor: &mut Monitor<'a, Self>,
        events: &[u8],
        fuel: u32,
        answers: &mut [u8],
    ) -> [u64; 5] {
        let places = monitor.rules.places();
        let mut sums = Counts::default();
        let [stop, accepted] = monitor.take_each(events, answers, |monitor, first| {
            let (answer, counts) = monitor.run(&places, first, fuel);
            sums.steps += counts.steps;
            sums.rewrites += counts.rewrites;
            sums.put_back += counts.put_back;
            answer
        });
        [stop, accepted, sums.steps, sums.rewrites, sums.put_back]
    }
}

/// Whether all are 0. The loop takes N at once and has no exit, so that it becomes vector code.
fn all_zero<T: Copy + Default + PartialEq + BitOr<Output = T>, const N: usize>(all: &[T]) -> bool {
    let (chunks, rest) = all.as_chunks::<N>();
    let mut sums = [T::default(); N];
    for chunk in chunks {
        for (sum, &number) in sums.iter_mut().zip(chunk) {
            *sum = *sum | number;
        }
    }
    let all = sums.iter().chain(rest);
    all.fold(T::default(), |sum, &number| sum | number) == T::default()
}

impl<'a> Monitor<'a, Rules<'a>> {
    /// Runs. No verdict stands, and `first` is the first waiting symbol. The symbol that comes next
    /// is kept beside its byte, since a byte just written is read back late.
    #[inline(always)]
    fn run(&mut self, places: &[u16; 64], first: u8, fuel: u32) -> (u64, Counts) {
        let fuel = u64::from(fuel);
        let mut counts = Counts::default();
        let mut settled = self.settled;
        let mut begin = self.begin;
        let mut state = self.state_at(settled);
        let mut symbol = first;
        let answer = loop {
            if begin >= ROOM {
                break QUIET;
            }
            if counts.steps == fuel {
                break SPENT;
            }
            let next = self.rules.rows[state * self.rules.symbols + usize::from(symbol)];
            let match_word = self.rules.matches[usize::from(next)];
            if match_word == 0 {
                counts.steps += 1;
                self.bytes[begin] = 0;
                self.bytes[settled & LAST] = symbol;
                self.words[settled & LAST] = next;
                begin += 1;
                settled += 1;
                state = usize::from(next);
                symbol = self.bytes[begin & LAST];
                continue;
            }
            let rule = usize::from(match_word - 1);
            let [left, kind, right, _] = self.rules.contents[rule];
            let taken_off = usize::from(left) - 1;
            if kind == 1 {
                counts.steps += 1;
                counts.rewrites += 1;
                self.bytes[begin] = 0;
                begin += 1;
                settled = self.take_off(settled, taken_off);
                self.verdict = u64::from(right) + 1;
                self.rule = rule as u64;
                break 16 + u64::from(right);
            }
            let length = usize::from(right);
            // There are `begin - settled` free places. The symbols taken off make more.
            if length > begin - settled + usize::from(left) {
                break FULL;
            }
            counts.steps += 1;
            counts.rewrites += 1;
            counts.put_back += length as u64;
            self.bytes[begin] = 0;
            settled = self.take_off(settled, taken_off);
            begin = begin + 1 - length;
            let body = usize::from(places[rule & 63]) + usize::from(left);
            let right = &self.rules.bodies[body..body + length];
            // At most eight: so the loop stays short code.
            for (place, &symbol) in (begin..).zip(right.iter().take(8)) {
                self.bytes[place & LAST] = symbol;
            }
            symbol = match right.first() {
                Some(&first) => first,
                None => self.bytes[begin & LAST],
            };
            state = self.state_at(settled);
        };
        self.settled = settled;
        self.begin = begin;
        (answer, counts)
    }

    /// The state after `settled` symbols.
    #[inline(always)]
    fn state_at(&self, settled: usize) -> usize {
        if settled == 0 {
            0
        } else {
            usize::from(self.words[(settled - 1) & LAST])
        }
    }

    /// Takes so many of the last settled symbols off, and returns how many are left.
    #[inline(always)]
    fn take_off(&mut self, settled: usize, count: usize) -> usize {
        let mut settled = settled;
        // At most seven: so the loop stays short code.
        for _ in 0..count & 7 {
            settled -= 1;
            self.bytes[settled & LAST] = 0;
            self.words[settled & LAST] = 0;
        }
        settled
    }
}
