//! The monitor: the library against [`crate::plain`], [`crate::tuned`] and [`crate::rescan`].

use crate::plain::monitor::Plain;
use crate::rescan::Rescan;
use crate::shared::monitor::{self, Kind};
use crate::timing::{Group, Side, Work, BASELINES, LIBRARY, SIDES};
use crate::tuned::monitor::Tuned;
use reference::monitor::{Lent, Memory, State, ROOM};
use reference::random::{largest, largest_with_marks, sample, Random};
use reference::{string, Right, RuleSet, Symbol};
use std::hint::black_box;
use watcher::raw;

/// The events lock, take and free, which leave nothing behind.
const CYCLE: [Symbol; 3] = [0, 1, 2];
/// The event `free`, which alone stays in the string.
const FREE: Symbol = 2;
/// The fuel of a call that is to end quiet.
const FUEL: u32 = 1_000;
/// The most fuel.
const MUCH: u32 = 65_535;
/// The events of a batch.
const BATCH: usize = 1_000;

/// The functions of a monitor, the library's or those in safe Rust.
struct Functions {
    offer: Offer,
    go_on: GoOn,
    batch: Batch,
}

type Offer = fn(&[u8], &[u16], &mut [u64; 4], &mut [u8], &mut [u16], u8, u32, &mut [u64; 4]) -> u32;
type GoOn = fn(&[u8], &[u16], &mut [u64; 4], &mut [u8], &mut [u16], u32, &mut [u64; 4]) -> u32;
type Batch = fn(
    &[u8],
    &[u16],
    &mut [u64; 4],
    &mut [u8],
    &mut [u16],
    &[u8],
    u32,
    &mut [u8],
    &mut [u64; 5],
) -> u32;

/// The monitors, the library's first.
const MONITORS: [Functions; SIDES] = [
    Functions {
        offer: raw::offer,
        go_on: raw::go_on,
        batch: raw::batch,
    },
    functions::<Plain>(),
    functions::<Tuned>(),
    #[cfg(feature = "before")]
    Functions {
        offer: before::offer,
        go_on: before::go_on,
        batch: before::batch,
    },
];

const fn functions<K: Kind>() -> Functions {
    Functions {
        offer: monitor::offer::<K>,
        go_on: monitor::go_on::<K>,
        batch: monitor::batch::<K>,
    }
}

/// A call of a monitor.
#[derive(Clone, Debug)]
enum Call {
    Offer(Symbol, u32),
    GoOn(u32),
    Batch(Vec<Symbol>, u32),
}

/// What calls change.
#[derive(Clone, Debug, PartialEq)]
struct Lendings {
    memory: Memory,
    answers: Vec<u8>,
    /// What the last call gave; an offer and a go-on give a word less than a batch.
    out: [u64; 5],
}

impl Call {
    /// Makes the call, and returns its refusal.
    #[inline]
    fn make(&self, functions: &Functions, lent: &Lent, lendings: &mut Lendings) -> u32 {
        let image = black_box(&lent.image[..]);
        let table = black_box(&lent.table[..]);
        let Lendings {
            memory: Memory { head, bytes, words },
            answers,
            out,
        } = lendings;
        let [answer @ .., _] = out;
        match self {
            Call::Offer(event, fuel) => {
                (functions.offer)(image, table, head, bytes, words, *event, *fuel, answer)
            }
            Call::GoOn(fuel) => (functions.go_on)(image, table, head, bytes, words, *fuel, answer),
            Call::Batch(events, fuel) => (functions.batch)(
                image, table, head, bytes, words, events, *fuel, answers, out,
            ),
        }
    }

    /// Makes the call, and says whether it was accepted, and all events of a batch.
    #[inline]
    fn goes_well(&self, functions: &Functions, lent: &Lent, lendings: &mut Lendings) -> bool {
        let refusal = self.make(functions, lent, lendings);
        refusal == 0 && (!matches!(self, Call::Batch(..)) || lendings.out[0] == 0)
    }
}

/// What takes a monitor back to where it began, so that the calls can be made again.
#[derive(Clone, Copy, Debug, PartialEq)]
enum Back {
    /// The calls themselves do.
    Calls,
    /// Head and last byte are set: where one event was offered without fuel.
    LastByte,
    /// Head and areas are copied, which takes a tenth of a microsecond.
    Copy,
}

/// Calls that are made over and over.
#[derive(Clone)]
struct Day {
    lent: Lent,
    /// Where the monitor begins.
    begin: Memory,
    calls: Vec<Call>,
    back: Back,
    lendings: Lendings,
    /// The events, or what times are shown for.
    units: usize,
}

impl Day {
    /// A day that begins with this state and is back there after its calls.
    fn new(lent: &Lent, begin: &State, calls: Vec<Call>) -> Day {
        let begin = begin.lay_out(lent);
        let units = calls.iter().map(|call| match call {
            Call::Offer(..) => 1,
            Call::GoOn(..) => 0,
            Call::Batch(events, _) => events.len(),
        });
        Day {
            lent: lent.clone(),
            units: units.sum(),
            calls,
            back: Back::Calls,
            lendings: Lendings {
                memory: begin.clone(),
                answers: vec![0xff; BATCH],
                out: [0; 5],
            },
            begin,
        }
    }

    /// The same, taken back so, with times for so many units.
    fn with(self, back: Back, units: usize) -> Day {
        Day {
            back,
            units,
            ..self
        }
    }

    fn go_back(&self, memory: &mut Memory) {
        go_back(self.back, &self.begin, memory);
    }
}

/// Takes a monitor back to where it began.
#[inline]
fn go_back(back: Back, begin: &Memory, memory: &mut Memory) {
    match back {
        Back::Calls => {}
        Back::LastByte => {
            memory.head = begin.head;
            memory.bytes[ROOM - 1] = 0;
        }
        Back::Copy => {
            memory.head = begin.head;
            memory.bytes.copy_from_slice(&begin.bytes);
            memory.words.copy_from_slice(&begin.words);
        }
    }
}

impl Work for Day {
    fn once(&mut self, side: Side) -> bool {
        let functions = &MONITORS[side];
        let mut well = true;
        for call in &self.calls {
            well &= call.goes_well(functions, &self.lent, &mut self.lendings);
        }
        go_back(self.back, &self.begin, &mut self.lendings.memory);
        well
    }

    fn expect_agreement(&mut self) {
        assert!(self.lendings.memory == self.begin);
        let mut sides = MONITORS.map(|functions| (functions, self.lendings.clone()));
        for call in &self.calls {
            for (functions, lendings) in &mut sides {
                lendings.out = [0; 5];
                assert!(call.goes_well(functions, &self.lent, lendings), "{call:?}");
            }
            let [ours, others @ ..] = &sides;
            assert!(others.iter().all(|other| other.1 == ours.1), "{call:?}");
        }
        let [(_, ours), ..] = &mut sides;
        self.go_back(&mut ours.memory);
        assert!(ours.memory == self.begin);
    }

    fn units(&self, _side: Side) -> usize {
        self.units
    }
}

/// All races of the monitor.
pub fn races() -> Vec<Group> {
    let group = |title, days: Vec<(&str, &'static str, Day)>| {
        let mut group = Group::new(title, BASELINES);
        for (name, unit, day) in days {
            group.add(name, unit, day);
        }
        group
    };
    vec![
        group("Monitor", days()),
        group("Calls without a step", calls_without_a_step()),
        rescanning(),
    ]
}

/// The days that are measured, with their names and what a time is for.
fn days() -> Vec<(&'static str, &'static str, Day)> {
    let sample = Lent::of(&sample());
    let queue = Lent::of(&queue());
    let eights = Lent::of(&eights());
    let sort = Lent::of(&sort());
    let empty = State::default();
    let held = settled(&[FREE; 1_000]);
    let unsorted = [[2; 50], [1; 50], [0; 50]].concat();
    // Each 1 and each 2 must pass each 0, and each 2 each 1.
    let swaps = 3 * 50 * 50;

    let offered_and_gone_on = CYCLE
        .iter()
        .flat_map(|&event| [Call::Offer(event, 0), Call::GoOn(FUEL)])
        .collect();
    let mut queued = offers(&[0; BATCH], 1);
    queued.push(Call::GoOn(MUCH));
    let batch_queued = vec![Call::Batch(vec![0; BATCH], 1), Call::GoOn(MUCH)];
    let eights_in_turn = events_of_eights();
    vec![
        (
            "lock take free, nothing held: single offers",
            "event",
            Day::new(&sample, &empty, offers(&CYCLE, FUEL)),
        ),
        (
            "lock take free, nothing held: without fuel, go on",
            "event",
            Day::new(&sample, &empty, offered_and_gone_on),
        ),
        (
            "lock take free, nothing held: batches of 1,000",
            "event",
            Day::new(&sample, &empty, batches(&cycles(), FUEL)),
        ),
        (
            "lock take free, 1,000 held: single offers",
            "event",
            Day::new(&sample, &held, offers(&CYCLE, FUEL)),
        ),
        (
            "lock take free, 1,000 held: batches of 1,000",
            "event",
            Day::new(&sample, &held, batches(&cycles(), FUEL)),
        ),
        (
            "queue of up to 896: offers with fuel 1, go on",
            "event",
            Day::new(&queue, &empty, queued),
        ),
        (
            "queue of up to 896: batch with fuel 1, go on",
            "event",
            Day::new(&queue, &empty, batch_queued),
        ),
        (
            "queue of 1,000: go on",
            "event",
            Day::new(&queue, &waiting(&[0; 1_000]), vec![Call::GoOn(MUCH)]).with(Back::Copy, 1_000),
        ),
        (
            "64 left sides of 8: single offers",
            "event",
            Day::new(&eights, &empty, offers(&eights_in_turn[..32], FUEL)),
        ),
        (
            "64 left sides of 8: batches of 1,000",
            "event",
            Day::new(&eights, &empty, batches(&eights_in_turn, FUEL)),
        ),
        (
            "swaps of 2^50 1^50 0^50: go on",
            "rewrite",
            Day::new(&sort, &waiting(&unsorted), vec![Call::GoOn(MUCH)]).with(Back::Copy, swaps),
        ),
    ]
}

/// Calls that take no step: they check image, table, head and areas, whatever they then do.
fn calls_without_a_step() -> Vec<(&'static str, &'static str, Day)> {
    let sample = Lent::of(&sample());
    let largest = Lent::of(&largest());
    let with_marks = Lent::of(&largest_with_marks());
    let empty = State::default();
    let offer = |lent| Day::new(lent, &empty, offers(&[0], 0)).with(Back::LastByte, 1);
    let go_on = |lent, state| Day::new(lent, state, vec![Call::GoOn(0)]).with(Back::Calls, 1);
    vec![
        ("sample: offer", "call", offer(&sample)),
        (
            "sample: go on, nothing held",
            "call",
            go_on(&sample, &empty),
        ),
        (
            "sample: go on, 1,000 settled",
            "call",
            go_on(&sample, &settled(&[FREE; 1_000])),
        ),
        (
            "sample: go on, 1,000 waiting",
            "call",
            go_on(&sample, &waiting(&[FREE; 1_000])),
        ),
        ("largest table: offer", "call", offer(&largest)),
        (
            "largest table: go on, nothing held",
            "call",
            go_on(&largest, &empty),
        ),
        (
            "largest table with marks: offer",
            "call",
            offer(&with_marks),
        ),
        (
            "largest table with marks: go on, nothing held",
            "call",
            go_on(&with_marks, &empty),
        ),
    ]
}

/// A rule that puts back eight symbols, which then vanish.
fn queue() -> RuleSet {
    let (a, b) = (0, 1);
    RuleSet {
        symbols: 2,
        events: 1,
        verdicts: 2,
        rules: vec![string(&[a], &[b; 8]), string(&[b, b], &[])],
    }
}

/// The largest table without marks: 64 left sides of eight symbols. Each of the first 32 becomes one
/// of the others, and those vanish.
fn eights() -> RuleSet {
    let mut set = largest();
    for rule in 0..32 {
        set.rules[rule].right = Right::Symbols(set.rules[63 - rule].left.clone());
        set.rules[63 - rule].right = Right::Symbols(Vec::new());
    }
    set
}

/// A thousand events that are left sides of [`eights`], one of the first 32 after another.
fn events_of_eights() -> Vec<Symbol> {
    let set = eights();
    let mut random = Random::new(8);
    let rules = (0..BATCH / 8).map(|_| &set.rules[random.below(32)]);
    rules.flat_map(|rule| rule.left.clone()).collect()
}

/// Rules that sort three symbols.
fn sort() -> RuleSet {
    RuleSet {
        symbols: 3,
        events: 3,
        verdicts: 2,
        rules: vec![
            string(&[1, 0], &[0, 1]),
            string(&[2, 0], &[0, 2]),
            string(&[2, 1], &[1, 2]),
        ],
    }
}

fn settled(symbols: &[Symbol]) -> State {
    State {
        settled: symbols.to_vec(),
        ..State::default()
    }
}

fn waiting(symbols: &[Symbol]) -> State {
    State {
        waiting: symbols.to_vec(),
        ..State::default()
    }
}

/// 3,000 events of lock, take, free.
fn cycles() -> Vec<Symbol> {
    CYCLE.repeat(BATCH)
}

fn offers(events: &[Symbol], fuel: u32) -> Vec<Call> {
    let offer = |&event| Call::Offer(event, fuel);
    events.iter().map(offer).collect()
}

fn batches(events: &[Symbol], fuel: u32) -> Vec<Call> {
    let batches = events.chunks(BATCH);
    batches
        .map(|events| Call::Batch(events.to_vec(), fuel))
        .collect()
}

/// The races against a monitor that looks through its string again after every rewrite.
fn rescanning() -> Group {
    let mut group = Group::new("Monitor, batches of 1,000", &["rescanning"]);
    for (name, begin) in [
        ("lock take free, nothing held", State::default()),
        ("lock take free, 1,000 held", settled(&[FREE; 1_000])),
    ] {
        let set = sample();
        let work = Rescanning {
            rescan: Rescan::new(&set, &begin.string()),
            day: Day::new(&Lent::of(&set), &begin, batches(&cycles(), FUEL)),
        };
        group.add(name, "event", work);
    }
    group
}

/// Batches of the library against another monitor, which takes fewer events, since it takes long.
struct Rescanning {
    day: Day,
    rescan: Rescan,
}

impl Rescanning {
    /// The events of a call of the other monitor.
    const EVENTS: usize = 30;
}

impl Work for Rescanning {
    fn once(&mut self, side: Side) -> bool {
        match side {
            LIBRARY => self.day.once(side),
            _ => {
                let Call::Batch(events, fuel) = &self.day.calls[0] else {
                    return false;
                };
                self.rescan.batch(black_box(&events[..Self::EVENTS]), *fuel) > 0
            }
        }
    }

    fn expect_agreement(&mut self) {
        let Call::Batch(events, fuel) = &self.day.calls[0] else {
            panic!("a day of batches");
        };
        let mut rescan = self.rescan.clone();
        let mut lendings = self.day.lendings.clone();
        // Each event by itself, so that the strings in between are compared too.
        for &event in &events[..Self::EVENTS] {
            let call = Call::Batch(vec![event], *fuel);
            assert!(call.goes_well(&MONITORS[LIBRARY], &self.day.lent, &mut lendings));
            assert_eq!(rescan.batch(&[event], *fuel), lendings.out[3]);
            let [settled, waiting, verdict, _] = lendings.memory.head;
            assert_eq!((waiting, verdict), (0, 0));
            assert_eq!(rescan.string, lendings.memory.bytes[..settled as usize]);
        }
        assert_eq!(rescan.string, self.rescan.string);
    }

    fn units(&self, side: Side) -> usize {
        match side {
            LIBRARY => self.day.units,
            _ => Self::EVENTS,
        }
    }
}

#[cfg(test)]
mod tests {
    use super::*;
    use reference::monitor as naive;
    use reference::random::Habit;

    /// What a day does, by the reference.
    #[derive(Debug, Default, PartialEq)]
    struct Sums {
        steps: u64,
        rewrites: u64,
        put_back: u64,
        /// The most symbols that waited after a call.
        waited: u64,
    }

    /// Makes the calls of a day by the reference and expects the same of all sides.
    fn walk(name: &str, day: &Day) -> Sums {
        let mut sums = Sums::default();
        let mut lendings = day.lendings.clone();
        for call in &day.calls {
            assert_eq!(compare(call, &day.lent, &mut lendings), 0, "{name}");
            let [stop, a, b, c, d] = lendings.out;
            let [steps, rewrites, put_back] = match call {
                Call::Batch(..) => {
                    assert_eq!(stop, 0, "{name}");
                    [b, c, d]
                }
                _ => [a, b, c],
            };
            sums.steps += steps;
            sums.rewrites += rewrites;
            sums.put_back += put_back;
            sums.waited = sums.waited.max(lendings.memory.head[1]);
        }
        day.go_back(&mut lendings.memory);
        assert!(lendings.memory == day.begin, "{name}");
        sums
    }

    /// Makes a call by the reference, expects the same of all sides, and returns the refusal.
    fn compare(call: &Call, lent: &Lent, lendings: &mut Lendings) -> u32 {
        let before = lendings.clone();
        let refusal = give(call, lent, lendings);
        for (side, functions) in MONITORS.iter().enumerate() {
            let mut given = before.clone();
            let found = call.make(functions, lent, &mut given);
            assert_eq!(found, refusal, "side {side}: {call:?}");
            assert!(given == *lendings, "side {side}: {call:?}");
        }
        refusal
    }

    /// Makes a call by the reference, and returns its refusal.
    fn give(call: &Call, lent: &Lent, lendings: &mut Lendings) -> u32 {
        let memory = &lendings.memory;
        let (refusal, after) = match call {
            Call::Batch(events, fuel) => {
                let outcome = naive::batch(lent, memory, events, *fuel, &lendings.answers);
                lendings.out = outcome.out;
                lendings.answers = outcome.answers;
                (outcome.refusal, outcome.memory)
            }
            Call::Offer(event, fuel) => {
                let outcome = naive::offer(lent, memory, *event, *fuel);
                lendings.out[..4].copy_from_slice(&outcome.out);
                (outcome.refusal, outcome.memory)
            }
            Call::GoOn(fuel) => {
                let outcome = naive::go_on(lent, memory, *fuel);
                lendings.out[..4].copy_from_slice(&outcome.out);
                (outcome.refusal, outcome.memory)
            }
        };
        lendings.memory = after;
        refusal
    }

    /// Each side is what the reference says, so that all sides of a race do the same work: lists of
    /// calls, some of them on damaged heads and areas.
    #[test]
    fn sides_are_the_reference() {
        let mut random = Random::new(17);
        let mut seen = [0; 17];
        for round in 0..1_200 {
            let habit = Habit::ALL[round % Habit::ALL.len()];
            let set = match round / Habit::ALL.len() % 2 {
                0 => habit.rule_set(&mut random),
                _ => habit.with_marks(&mut random),
            };
            let lent = Lent::of(&set);
            let mut memory = Memory::empty();
            if round % 5 == 0 {
                let length = random.within(2_030, ROOM);
                memory = waiting(&random.string(length, set.symbols)).lay_out(&lent);
            }
            for _ in 0..12 {
                let good = memory.clone();
                if random.once_in(4) {
                    damage(&mut random, &mut memory);
                }
                let call = call(&mut random, &set);
                let mut lendings = Lendings {
                    memory,
                    answers: vec![0x77; random.within(3, 5)],
                    out: [9; 5],
                };
                let refusal = compare(&call, &lent, &mut lendings);
                seen[refusal as usize] += 1;
                memory = if refusal == 0 { lendings.memory } else { good };
            }
        }
        for refusal in [0, 10, 11, 12, 13, 14, 15, 16] {
            assert!(seen[refusal] > 50, "{refusal}: {seen:?}");
        }
    }

    /// A call with an event, or a batch of four.
    fn call(random: &mut Random, set: &RuleSet) -> Call {
        let fuel = [0, 1, 3, 30, 65_536][random.below(5)];
        match random.below(3) {
            0 => Call::Offer(random.below(usize::from(set.events) + 1) as Symbol, fuel),
            1 => Call::GoOn(fuel),
            _ => Call::Batch(random.string(4, set.events), fuel),
        }
    }

    fn damage(random: &mut Random, memory: &mut Memory) {
        let place = match random.below(3) {
            0 => random.below(4),
            1 => ROOM - 1 - random.below(4),
            _ => random.below(ROOM),
        };
        match random.below(5) {
            0 => memory.bytes[place] = random.below(6) as u8,
            1 => memory.words[place] = random.below(6) as u16,
            2 => memory.head[random.below(4)] = random.below(5) as u64,
            3 => memory.head[random.below(4)] = random.bits(),
            _ => memory.words.truncate(place),
        }
    }

    /// Each day is what the reference says, and does what its name says.
    #[test]
    fn days_are_the_reference() {
        let walked: Vec<_> = days()
            .iter()
            .map(|(name, _, day)| (*name, day.units as u64, walk(name, day)))
            .collect();
        assert!(walked.len() > 10);
        for (name, units, sums) in walked {
            let Sums {
                rewrites, waited, ..
            } = sums;
            if name.starts_with("lock take free") {
                // Two rewrites for three events.
                assert_eq!(3 * rewrites, 2 * units, "{name}");
            } else if name.starts_with("queue") {
                // Each event becomes eight symbols, which vanish two by two.
                assert_eq!(
                    (units, rewrites, sums.put_back),
                    (1_000, 5_000, 8_000),
                    "{name}"
                );
                assert!(waited == 0 || waited == 896, "{name}: {waited}");
            } else if name.starts_with("64") {
                // Each eight events become eight others, which vanish.
                assert_eq!((4 * rewrites, sums.put_back), (units, units), "{name}");
            } else {
                assert_eq!((units, rewrites), (7_500, 7_500), "{name}");
            }
        }
    }

    /// Calls without a step take none, and the table of the eights is the largest without marks.
    #[test]
    fn what_the_names_say() {
        for (name, _, day) in calls_without_a_step() {
            assert_eq!(walk(name, &day).steps, 0, "{name}");
        }
        let sets = [eights(), largest(), largest_with_marks()];
        let tables = sets.map(|set| Lent::of(&set).table.len());
        assert_eq!(tables, [15_875, 15_875, 16_964]);
    }
}
