/*!
Races between the library and other ways to do the same work.

A race is run in short rounds, so that a round that the machine interrupts is one of many. In each
round all sides have a turn, one right behind the other, and from round to round another one goes
first. The ratio of a run is the median of its rounds' ratios: what slows the machine down for
longer than a round slows all sides of a round. All sides work on the same buffers, so that none is
better placed. All calls of a turn count, also the first ones, when the processor still guesses
branches by what the other sides did: a call elsewhere seldom follows itself either.

A processor learns by heart what it is given over and over, and a rule text is read once, at a
program's start. So texts and rule sets come in a [`Pool`] of many of a kind, of which each call has
the next one; only the text of the specification's sample is a pool of one. With one text over and
over readers took up to nearly half less time, with one rule set compile took up to two thirds less,
and ratios were others.

A run of all races is made several times. What is shown is the median over the runs, and beside it
the least and the largest ratio: how far it moves.
*/

use std::env;
use std::hint::black_box;
use std::time::{Duration, Instant};

/// How long the calls of one side take in a round, at least; mostly less than twice as long.
const TURN: Duration = Duration::from_micros(150);

/// The bytes of a pool: few enough for a core's second cache, and too many to be learned by heart.
/// On texts half as many and twice as many gave the same times.
const POOL_BYTES: usize = 512 << 10;

/// The most things in a pool.
const POOL_MOST: usize = 1_024;

/// Who does the work: the library is side 0, and behind it comes what it is measured against.
pub type Side = usize;

/// The library's side.
pub const LIBRARY: Side = 0;

/// What the library is mostly measured against: side 1 and those behind it.
pub const BASELINES: &[&str] = &[
    "plain",
    "tuned",
    #[cfg(feature = "before")]
    BEFORE,
];

/// The name of the library as it was before.
const BEFORE: &str = "before";

/// The library and its baselines.
pub const SIDES: usize = 1 + BASELINES.len();

/// Work that all sides can do.
pub trait Work {
    /// Does the work once, on the side's next thing of a pool if there is one, and says whether all
    /// went well. Afterwards it can be done again. This is what is timed.
    fn once(&mut self, side: Side) -> bool;

    /// Expects that all sides give and leave the same.
    fn expect_agreement(&mut self);

    /// How many units one call has: events, say. Times are shown for one unit.
    fn units(&self, _side: Side) -> usize {
        1
    }

    /// Does the work so often. A part of the trait, so that its loop calls `once` directly.
    fn often(&mut self, side: Side, calls: u32) -> bool {
        let mut well = true;
        for _ in 0..calls {
            well &= black_box(self.once(side));
        }
        well
    }
}

/// A pool's worth of things of about so many bytes.
pub fn many<T>(bytes: impl Fn(&T) -> usize, mut thing: impl FnMut() -> T) -> Vec<T> {
    let mut things = vec![thing()];
    let count = (POOL_BYTES / bytes(&things[0])).min(POOL_MOST);
    things.resize_with(count, thing);
    things
}

/// Different things of one kind to work on. All sides go through them in the same order, over and
/// over, each at its own pace.
pub struct Pool<T> {
    things: Vec<T>,
    /// Where each side is.
    places: [usize; SIDES],
    /// The place of the thing given last.
    last: usize,
}

impl<T> Pool<T> {
    /// A pool of these things, at least one.
    pub fn new(things: Vec<T>) -> Pool<T> {
        Pool {
            things,
            places: [0; SIDES],
            last: 0,
        }
    }

    /// The next thing for this side.
    pub fn next(&mut self, side: Side) -> &T {
        self.last = self.places[side];
        let next = self.last + 1;
        self.places[side] = if next < self.things.len() { next } else { 0 };
        &self.things[self.last]
    }

    /// The thing given last, at first the first one.
    pub fn last(&self) -> &T {
        &self.things[self.last]
    }

    /// All things.
    pub fn all(&self) -> &[T] {
        &self.things
    }
}

/// What a run gave: for each side its time, and the ratio of the library's time to it.
type Run = Vec<(f64, f64)>;

/// A race: a row of a table.
struct Race {
    name: String,
    unit: &'static str,
    work: Box<dyn Work>,
    /// The calls of each side in a round.
    calls: Vec<u32>,
    runs: Vec<Run>,
}

impl Race {
    /// The time of the calls of a side in one round, each of which must go well.
    fn turn(&mut self, side: Side) -> Duration {
        let start = Instant::now();
        let well = self.work.often(side, self.calls[side]);
        let time = start.elapsed();
        assert!(well, "{}", self.name);
        time
    }

    /// Doubles the calls of a side until they take long enough.
    fn set_calls(&mut self, side: Side) {
        // The fastest of a few turns, since one may be interrupted.
        while (0..5).map(|_| self.turn(side)).min() < Some(TURN) {
            self.calls[side] *= 2;
        }
    }

    /// The nanoseconds for one unit in a turn of this side.
    fn time(&mut self, side: Side) -> f64 {
        let units = f64::from(self.calls[side]) * self.work.units(side) as f64;
        self.turn(side).as_secs_f64() * 1e9 / units
    }

    /// Makes a run of so many rounds.
    fn run(&mut self, rounds: usize) {
        let sides = self.calls.len();
        let mut times = vec![Vec::with_capacity(rounds); sides];
        for round in 0..rounds {
            for side in order(round, sides) {
                times[side].push(self.time(side));
            }
        }
        self.work.expect_agreement();
        let of_side = |side: &Vec<f64>| {
            let pairs = times[LIBRARY].iter().zip(side);
            let ratio = median(pairs.map(|(library, other)| library / other).collect());
            (median(side.clone()), ratio)
        };
        self.runs.push(times.iter().map(of_side).collect());
    }

    /// The row: name, unit, the library's time, and of each other side its time, and the ratio with
    /// its least and its largest.
    fn row(&self, others: &[&str]) -> String {
        let time = |side: Side| figure(median(self.runs.iter().map(|run| run[side].0).collect()));
        let mut row = format!("{:<60} {:<7} {:>8}", self.name, self.unit, time(LIBRARY));
        for (other, name) in others.iter().enumerate() {
            let side = LIBRARY + 1 + other;
            let mut ratios: Vec<f64> = self.runs.iter().map(|run| run[side].1).collect();
            ratios.sort_unstable_by(f64::total_cmp);
            let shown = [ratios.len() / 2, 0, ratios.len() - 1].map(|place| ratios[place]);
            // Ratios far below 1 with the digits that they have.
            let digits = if shown[0] < 0.1 { 4 } else { 2 };
            let shown = shown.map(|ratio| format!("{ratio:.digits$}"));
            row += &columns(name, &time(side), shown.each_ref().map(String::as_str));
        }
        row
    }
}

/// The sides in the order of their turns in a round: each one goes first, then the same backwards.
fn order(round: usize, sides: usize) -> impl Iterator<Item = Side> {
    let backwards = round / sides % 2 == 1;
    (0..sides).map(move |turn| {
        let side = (round + turn) % sides;
        if backwards {
            sides - 1 - side
        } else {
            side
        }
    })
}

/// The columns of a side other than the library.
fn columns(name: &str, time: &str, ratios: [&str; 3]) -> String {
    let [ratio, least, most] = ratios;
    let width = name.len().max(8);
    format!("  {time:>width$} {ratio:>6} {least:>6} {most:>6}")
}

/// Races that are shown together.
pub struct Group {
    title: &'static str,
    /// What the library is measured against.
    others: &'static [&'static str],
    races: Vec<Race>,
}

impl Group {
    /// A group without races.
    pub fn new(title: &'static str, others: &'static [&'static str]) -> Group {
        Group {
            title,
            others,
            races: Vec::new(),
        }
    }

    /// Adds a race, not run yet, unless the command line asks for other rows or the library of
    /// before refuses its work.
    pub fn add(&mut self, name: &str, unit: &'static str, mut work: impl Work + 'static) {
        if !asked_for(&format!("{}: {name}", self.title)) {
            return;
        }
        let sides = 1 + self.others.len();
        let before = (1..sides).find(|&side| self.others[side - 1] == BEFORE);
        if before.is_some_and(|side| !work.once(side)) {
            eprintln!("left out, since before it was refused: {name}");
            return;
        }
        let mut race = Race {
            name: name.to_string(),
            unit,
            work: Box::new(work),
            calls: vec![1; sides],
            runs: Vec::new(),
        };
        race.work.expect_agreement();
        for side in 0..sides {
            race.set_calls(side);
        }
        self.races.push(race);
    }

    /// Makes a run of so many rounds of each race.
    pub fn run(&mut self, rounds: usize) {
        for race in &mut self.races {
            race.run(rounds);
        }
    }

    /// Prints the table of these races, if there are any.
    pub fn print(&self) {
        if self.races.is_empty() {
            return;
        }
        let mut head = format!("{:<60} {:<7} {:>8}", self.title, "for one", "library");
        for name in self.others {
            head += &columns(name, name, ["ratio", "least", "most"]);
        }
        println!("\n{head}");
        for race in &self.races {
            println!("{}", race.row(self.others));
        }
    }
}

/// Whether the command line asks for the row with this title and name: its third argument is a part of
/// them, or there is none.
fn asked_for(row: &str) -> bool {
    env::args().nth(3).is_none_or(|part| row.contains(&part))
}

/// The middle one of at least one number.
fn median(mut numbers: Vec<f64>) -> f64 {
    numbers.sort_unstable_by(f64::total_cmp);
    numbers[numbers.len() / 2]
}

/// A time with as many digits as say something.
fn figure(time: f64) -> String {
    if time < 100.0 {
        format!("{time:.1}")
    } else {
        format!("{time:.0}")
    }
}

#[cfg(test)]
mod tests {
    use super::*;

    /// Each side goes through a pool in the same order, whatever the others do.
    #[test]
    fn pools() {
        let mut number = 0;
        let things = many(
            |_| POOL_BYTES / 3,
            || {
                number += 1;
                number
            },
        );
        let mut pool = Pool::new(things);
        assert_eq!((pool.all(), pool.last()), (&[1, 2, 3][..], &1));
        for (side, wanted) in [
            (0, 1),
            (0, 2),
            (1, 1),
            (0, 3),
            (2, 1),
            (0, 1),
            (1, 2),
            (0, 2),
        ] {
            assert_eq!(*pool.next(side), wanted);
            assert_eq!(*pool.last(), wanted);
        }
        assert_eq!(many(|_| 1, || 0).len(), POOL_MOST);
    }

    /// In six rounds of three sides each order is there once, and nobody has two turns in a row.
    #[test]
    fn orders() {
        let orders: Vec<Vec<Side>> = (0..6).map(|round| order(round, 3).collect()).collect();
        let turns: Vec<Side> = (0..7).flat_map(|round| order(round, 3)).collect();
        assert!(turns.windows(2).all(|pair| pair[0] != pair[1]));
        let mut sorted = orders.clone();
        sorted.sort();
        sorted.dedup();
        assert_eq!(sorted.len(), 6, "{orders:?}");
        for mut order in orders {
            order.sort();
            assert_eq!(order, [0, 1, 2]);
        }
    }
}
