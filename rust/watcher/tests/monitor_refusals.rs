//! Every refusal of every operation, alone and together with others. What a refused call was lent is
//! compared byte by byte and word by word, as in every call of these tests.

mod common;

use common::calls::{batch, fresh, go_on, offer, refusals};
use reference::monitor::{Lent, Memory, State, ROOM};
use reference::random::{sample, Habit, Random, Shape};
use reference::{Right, RuleSet};

/// The sample, and the sample with `^ take` for `take`.
fn sets() -> [RuleSet; 2] {
    let mut with_mark = sample();
    with_mark.rules[2].marked = true;
    [sample(), with_mark]
}

/// What a call is given.
#[derive(Clone)]
struct Given {
    /// The rule set that image and table were of at first.
    set: RuleSet,
    image: Vec<u8>,
    table: Vec<u16>,
    memory: Memory,
    event: u8,
    fuel: u32,
    events: Vec<u8>,
    answers: usize,
}

impl Given {
    /// One of these rule sets, a monitor that holds `lock free` settled and `free free` waiting, and events
    /// lock.
    fn good(set: &RuleSet) -> Given {
        let lent = Lent::of(set);
        let memory = State {
            settled: vec![0, 2],
            waiting: vec![2, 2],
            verdict: None,
        }
        .lay_out(&lent);
        Given {
            set: set.clone(),
            image: lent.image,
            table: lent.table,
            memory,
            event: 0,
            fuel: 65_535,
            events: vec![0; 5],
            answers: 5,
        }
    }

    fn lent(&self) -> Lent {
        Lent::new(&self.image, &self.table)
    }

    #[track_caller]
    fn offer(&self) -> u32 {
        offer(
            &self.lent(),
            &mut self.memory.clone(),
            self.event,
            self.fuel,
        )
        .refusal
    }

    #[track_caller]
    fn go_on(&self) -> u32 {
        go_on(&self.lent(), &mut self.memory.clone(), self.fuel).refusal
    }

    /// The refusal, or the stop.
    #[track_caller]
    fn batch(&self) -> u32 {
        let mut memory = self.memory.clone();
        let outcome = batch(
            &self.lent(),
            &mut memory,
            &self.events,
            self.fuel,
            self.answers,
        );
        match outcome.refusal {
            0 => outcome.out[0] as u32,
            refusal => refusal,
        }
    }

    /// Gives the call this cause of a refusal. Causes are given from the last to the first.
    fn spoil(&mut self, cause: u32) {
        match cause {
            7 => self.image[3] = 5,
            9 => self.table[20] ^= 1,
            10 => {
                self.memory.words.pop();
            }
            11 => self.memory.head[3] = 1,
            12 => {
                self.event = 3;
                self.events[0] = 3;
            }
            13 => self.fuel = 65_536,
            14 => self.memory.head[2..].copy_from_slice(&[1, 2]),
            15 => {
                let room = State {
                    settled: vec![2; 1_000],
                    waiting: vec![0; 1_048],
                    verdict: None,
                };
                self.memory = room.lay_out(&Lent::of(&self.set));
            }
            16 => self.answers -= 1,
            _ => unreachable!("no such refusal"),
        }
    }
}

/// Gives a call every set of these causes, which stand in the order of the refusals, and expects the
/// first of each set.
fn every_set_of_causes(causes: &[u32], refusal: fn(&Given) -> u32) {
    for set in sets() {
        every_set_of_causes_for(&set, causes, refusal);
    }
}

fn every_set_of_causes_for(set: &RuleSet, causes: &[u32], refusal: fn(&Given) -> u32) {
    for chosen in 0..1u32 << causes.len() {
        let mut given = Given::good(set);
        let mut first = 0;
        for (place, &cause) in causes.iter().enumerate().rev() {
            if chosen >> place & 1 == 1 {
                given.spoil(cause);
                first = cause;
            }
        }
        assert_eq!(refusal(&given), first, "causes {chosen:b} of {causes:?}");
    }
}

#[test]
fn offer_with_every_set_of_causes() {
    every_set_of_causes(&[7, 9, 10, 11, 12, 13, 14, 15], Given::offer);
}

/// A go-on has no event, and a full monitor is no cause.
#[test]
fn go_on_with_every_set_of_causes() {
    every_set_of_causes(&[7, 9, 10, 11, 13, 14], Given::go_on);
    let mut full = Given::good(&sample());
    full.spoil(15);
    assert_eq!(full.go_on(), 0);
    full.spoil(12);
    assert_eq!(full.go_on(), 0);
}

/// The refusals of a batch, and then the stops at its first event, which are no refusals.
#[test]
fn batch_with_every_set_of_causes() {
    every_set_of_causes(&[7, 9, 10, 11, 13, 16, 12, 14, 15], Given::batch);
}

/// Fresh is given areas of any length and content.
#[test]
fn fresh_with_areas_of_every_length() {
    let lengths = [
        0, 1, 2, 7, 8, 1_024, 2_046, 2_047, 2_048, 2_049, 2_050, 4_096, 65_535, 65_536, 67_584,
    ];
    let mut random = Random::new(701);
    let mut accepted = 0;
    for bytes in lengths {
        for words in lengths {
            for filler in [0, 1, 0xff] {
                let mut memory = Memory {
                    head: [random.bits(), 3, u64::MAX, 1],
                    bytes: vec![filler; bytes],
                    words: vec![u16::from(filler) * 257; words],
                };
                let refusal = fresh(&mut memory);
                assert_eq!(refusal == 0, bytes == 2_048 && words == 2_048);
                assert!(refusal == 0 || refusal == 10);
                assert_eq!(memory.head, [0; 4]);
                accepted += usize::from(refusal == 0);
            }
        }
    }
    assert_eq!(accepted, 3);
    for round in 0..200 {
        let mut memory = Memory {
            head: [0; 4].map(|_| random.bits()),
            bytes: (0..ROOM).map(|_| random.byte()).collect(),
            words: (0..ROOM).map(|_| random.word()).collect(),
        };
        if round % 2 == 1 {
            memory.bytes.truncate(random.below(ROOM));
        }
        assert_eq!(fresh(&mut memory), [0, 10][round % 2]);
    }
}

/// 7: every byte of the image changed. Whatever the change, the table and the monitor are the same.
#[test]
fn bad_images() {
    for set in sets() {
        change_the_image(&Given::good(&set));
    }
}

fn change_the_image(good: &Given) {
    let (mut refused, mut others) = (0, 0);
    for place in 0..good.image.len() {
        for change in 1..=255 {
            let mut given = good.clone();
            given.image[place] ^= change;
            let lent = given.lent();
            match refusals(&lent, &given.memory, given.event, 9) {
                [7, 7, 7] => refused += 1,
                _ => others += 1,
            }
        }
    }
    assert!(refused > 5_000 && others > 50, "{refused} and {others}");
    for length in 0..good.image.len() {
        let lent = Lent::new(&good.image[..length], &good.table);
        assert_eq!(refusals(&lent, &good.memory, 0, 9), [7; 3]);
    }
}

/// 9: every word of the table changed, and tables cut at every length. Longer ones are accepted.
#[test]
fn other_tables() {
    for set in sets() {
        change_the_table(&Given::good(&set));
    }
}

fn change_the_table(good: &Given) {
    let mut random = Random::new(702);
    for place in 0..good.table.len() {
        let word = good.table[place];
        for value in [
            word.wrapping_add(1),
            word.wrapping_sub(1),
            word ^ 0x100,
            0xffff,
        ] {
            let mut table = good.table.clone();
            table[place] = value;
            let lent = Lent::new(&good.image, &table);
            assert_eq!(refusals(&lent, &good.memory, 0, 9), [9; 3]);
        }
        let lent = Lent::new(&good.image, &good.table[..place]);
        assert_eq!(refusals(&lent, &good.memory, 0, 9), [9; 3]);
    }
    for more in [1, 2, 100, 70_000] {
        let mut table = good.table.clone();
        table.extend((0..more).map(|_| random.word()));
        let lent = Lent::new(&good.image, &table);
        assert_eq!(refusals(&lent, &good.memory, 0, 9), [0; 3]);
    }
}

/// 10: areas of other lengths, whatever the head says.
#[test]
fn areas_of_other_lengths() {
    let good = Given::good(&sample());
    let lengths = [0, 1, 2, 3, 1_024, 2_047, 2_048, 2_049, 4_096, 67_584];
    for bytes in lengths {
        for words in lengths {
            for head in [good.memory.head, [0; 4], [u64::MAX; 4], [2, 0, 0, 0]] {
                let mut memory = good.memory.clone();
                memory.head = head;
                memory.bytes.resize(bytes, 0);
                memory.words.resize(words, 0);
                if bytes != ROOM || words != ROOM {
                    assert_eq!(refusals(&good.lent(), &memory, 3, 65_536), [10; 3]);
                }
            }
        }
    }
}

/// 12: every byte that is no event, for every number of events.
#[test]
fn no_events() {
    let mut random = Random::new(703);
    for symbols in [1, 2, 3, 31, 32] {
        for events in 1..=symbols {
            let mut set = Shape::NoRules.rule_set(&mut random);
            set.symbols = symbols;
            set.events = events;
            let lent = Lent::of(&set);
            for byte in 0..=255 {
                let found = offer(&lent, &mut Memory::empty(), byte, 2);
                assert_eq!(found.refusal, if byte < events { 0 } else { 12 });
                let stopped = batch(&lent, &mut Memory::empty(), &[byte], 2, 1);
                assert_eq!(stopped.out[0], if byte < events { 0 } else { 12 });
            }
        }
    }
}

/// 13: fuel above 65,535, with every bit above.
#[test]
fn too_much_fuel() {
    let given = Given::good(&sample());
    let lent = given.lent();
    let mut values = vec![65_536, 65_537, 65_538, 131_071, u32::MAX, u32::MAX - 1];
    values.extend((16..32).map(|bit| 1 << bit));
    values.extend((16..32).map(|bit| (1 << bit) + 1_000));
    for fuel in values {
        assert_eq!(refusals(&lent, &given.memory, 0, fuel), [13; 3]);
        // A bad event comes first in an offer, and is not looked at in a batch.
        assert_eq!(refusals(&lent, &given.memory, 3, fuel), [12, 13, 13]);
        let nothing = batch(&lent, &mut given.memory.clone(), &[], fuel, 0);
        assert_eq!(nothing.refusal, 13);
    }
    for fuel in [0, 1, 65_534, 65_535] {
        assert_eq!(refusals(&lent, &given.memory, 0, fuel), [0; 3]);
    }
}

/// 14: a verdict of any rule, beside any string.
#[test]
fn standing_verdicts() {
    let mut random = Random::new(704);
    let mut tried = [0; 16];
    for _ in 0..1_000 {
        let set = Habit::Mixed.either(&mut random);
        let lent = Lent::of(&set);
        for (rule, right) in set.rules.iter().map(|rule| &rule.right).enumerate() {
            let &Right::Verdict(verdict) = right else {
                continue;
            };
            let waiting = random.within(0, 50);
            let mut memory = State {
                waiting: random.string(waiting, set.symbols),
                ..State::default()
            }
            .lay_out(&lent);
            memory.head[2..].copy_from_slice(&[u64::from(verdict) + 1, rule as u64]);
            assert_eq!(refusals(&lent, &memory, 0, 9), [14, 14, 0]);
            assert_eq!(refusals(&lent, &memory, set.events, 9), [12, 14, 0]);
            tried[usize::from(verdict)] += 1;
        }
    }
    assert!(tried.iter().all(|&count| count > 1), "{tried:?}");
}

/// 16: more than 65,535 events, or fewer answer bytes than events.
#[test]
fn batches_of_bad_lengths() {
    let lent = Lent::of(&sample());
    for (events, answers, refused) in [
        (0, 0, false),
        (0, 5, false),
        (1, 0, true),
        (1, 1, false),
        (1, 2, false),
        (300, 299, true),
        (300, 300, false),
        (65_535, 65_534, true),
        (65_535, 65_535, false),
        (65_535, 70_000, false),
        (65_536, 0, true),
        (65_536, 65_535, true),
        (65_536, 65_536, true),
        (65_536, 131_072, true),
        (131_072, 131_072, true),
    ] {
        let cycle: Vec<u8> = (0..events).map(|place| (place % 3) as u8).collect();
        let outcome = batch(&lent, &mut Memory::empty(), &cycle, 1_000, answers);
        assert_eq!(outcome.refusal, if refused { 16 } else { 0 });
        assert_eq!(outcome.out[1], if refused { 0 } else { events });
        // The length comes behind the fuel.
        let outcome = batch(&lent, &mut Memory::empty(), &cycle, 65_536, answers);
        assert_eq!(outcome.refusal, 13);
    }
}
