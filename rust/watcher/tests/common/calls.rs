//! One call of a monitor's operation, compared with the reference in everything that it may change.
//!
//! Each function here calls the library and returns what the reference says, or panics if the two
//! differ in the refusal, a word of `out`, the head, any byte or word of the areas or any answer byte,
//! or if image, table, events or the margin around an area changed.

use reference::monitor::{self, BatchOutcome, Lent, Memory, Outcome};
use std::fmt::Debug;
use watcher::raw;

/// Elements kept on both sides of a lent area, which no call may touch.
const MARGIN: usize = 16;

/// An area with a margin on both sides.
pub struct Guarded<T> {
    buffer: Vec<T>,
    margin: T,
}

impl<T: Copy + PartialEq + Debug> Guarded<T> {
    pub fn new(area: &[T], margin: T) -> Guarded<T> {
        let mut buffer = Vec::with_capacity(MARGIN + area.len() + MARGIN);
        buffer.extend([margin; MARGIN]);
        buffer.extend_from_slice(area);
        buffer.extend([margin; MARGIN]);
        Guarded { buffer, margin }
    }

    pub fn area(&mut self) -> &mut [T] {
        let end = self.buffer.len() - MARGIN;
        &mut self.buffer[MARGIN..end]
    }

    /// Expects that the area is this one, and that the margins are as they were.
    #[track_caller]
    pub fn expect(&mut self, wanted: &[T], name: &str, call: &dyn Fn() -> String) {
        let margin = [self.margin; MARGIN];
        let end = self.buffer.len() - MARGIN;
        if self.buffer[..MARGIN] != margin || self.buffer[end..] != margin {
            panic!("{name}: a margin was written; {}", call());
        }
        let found = self.area();
        if found != wanted {
            let place = (0..wanted.len()).find(|&place| found[place] != wanted[place]);
            let place = place.expect("areas of the same length");
            panic!(
                "{name}: place {place} is {:?}, not {:?}; {}",
                found[place],
                wanted[place],
                call()
            );
        }
    }
}

/// The image, the table, the head and the areas that one call is lent.
struct Loan {
    image: Guarded<u8>,
    table: Guarded<u16>,
    head: [u64; 4],
    bytes: Guarded<u8>,
    words: Guarded<u16>,
}

impl Loan {
    fn new(lent: &Lent, memory: &Memory) -> Loan {
        Loan {
            image: Guarded::new(&lent.image, 0xe1),
            table: Guarded::new(&lent.table, 0xe2e2),
            head: memory.head,
            bytes: Guarded::new(&memory.bytes, 0xe3),
            words: Guarded::new(&memory.words, 0xe4e4),
        }
    }

    /// Expects this head and these areas, and the image and the table that were lent.
    #[track_caller]
    fn expect(&mut self, lent: &Lent, memory: &Memory, call: &dyn Fn() -> String) {
        assert_eq!(self.head, memory.head, "head; {}", call());
        self.image.expect(&lent.image, "image", call);
        self.table.expect(&lent.table, "table", call);
        self.bytes.expect(&memory.bytes, "bytes", call);
        self.words.expect(&memory.words, "words", call);
    }
}

/// What to say of a call that went wrong.
fn describe(name: &str, lent: &Lent, memory: &Memory) -> String {
    let [a, w, ..] = memory.head;
    let settled = memory.bytes.get(..a.min(40) as usize);
    let waiting = memory
        .bytes
        .len()
        .checked_sub(w.min(2_048) as usize)
        .and_then(|begin| memory.bytes.get(begin..))
        .map(|waiting| &waiting[..waiting.len().min(40)]);
    format!(
        "{name}; head {:?}, settled {settled:?}…, waiting {waiting:?}…, image {:?}",
        memory.head, lent.image
    )
}

/// Calls fresh, and makes `memory` what it leaves. Returns the refusal, or 0.
#[track_caller]
pub fn fresh(memory: &mut Memory) -> u32 {
    let (refusal, wanted) = monitor::fresh(memory);
    let mut head = memory.head;
    let mut bytes = Guarded::new(&memory.bytes, 0xe3);
    let mut words = Guarded::new(&memory.words, 0xe4e4);
    let found = raw::fresh(&mut head, bytes.area(), words.area());
    let call = || {
        format!(
            "fresh with {} bytes, {} words",
            memory.bytes.len(),
            memory.words.len()
        )
    };
    assert_eq!(found, refusal, "{}", call());
    assert_eq!(head, wanted.head, "{}", call());
    bytes.expect(&wanted.bytes, "bytes", &call);
    words.expect(&wanted.words, "words", &call);
    *memory = wanted;
    refusal
}

/// Calls offer, and makes `memory` what it leaves.
#[track_caller]
pub fn offer(lent: &Lent, memory: &mut Memory, event: u8, fuel: u32) -> Outcome {
    let wanted = monitor::offer(lent, memory, event, fuel);
    let mut loan = Loan::new(lent, memory);
    let mut out = [u64::MAX; 4];
    let refusal = raw::offer(
        loan.image.area(),
        loan.table.area(),
        &mut loan.head,
        loan.bytes.area(),
        loan.words.area(),
        event,
        fuel,
        &mut out,
    );
    let call = || describe(&format!("offer {event} with fuel {fuel}"), lent, memory);
    assert_eq!((refusal, out), (wanted.refusal, wanted.out), "{}", call());
    loan.expect(lent, &wanted.memory, &call);
    memory.clone_from(&wanted.memory);
    wanted
}

/// Calls go on, and makes `memory` what it leaves.
#[track_caller]
pub fn go_on(lent: &Lent, memory: &mut Memory, fuel: u32) -> Outcome {
    let wanted = monitor::go_on(lent, memory, fuel);
    let mut loan = Loan::new(lent, memory);
    let mut out = [u64::MAX; 4];
    let refusal = raw::go_on(
        loan.image.area(),
        loan.table.area(),
        &mut loan.head,
        loan.bytes.area(),
        loan.words.area(),
        fuel,
        &mut out,
    );
    let call = || describe(&format!("go on with fuel {fuel}"), lent, memory);
    assert_eq!((refusal, out), (wanted.refusal, wanted.out), "{}", call());
    loan.expect(lent, &wanted.memory, &call);
    memory.clone_from(&wanted.memory);
    wanted
}

/// Calls batch with answer bytes that hold a pattern, and makes `memory` what it leaves.
#[track_caller]
pub fn batch(
    lent: &Lent,
    memory: &mut Memory,
    events: &[u8],
    fuel: u32,
    answer_bytes: usize,
) -> BatchOutcome {
    // No byte here is an answer.
    let before: Vec<u8> = (0..answer_bytes).map(|place| 0x80 | place as u8).collect();
    let wanted = monitor::batch(lent, memory, events, fuel, &before);
    let mut loan = Loan::new(lent, memory);
    let mut lent_events = Guarded::new(events, 0xe5);
    let mut answers = Guarded::new(&before, 0xe6);
    let mut out = [u64::MAX; 5];
    let refusal = raw::batch(
        loan.image.area(),
        loan.table.area(),
        &mut loan.head,
        loan.bytes.area(),
        loan.words.area(),
        lent_events.area(),
        fuel,
        answers.area(),
        &mut out,
    );
    let call = || {
        let shown = &events[..events.len().min(40)];
        let name = format!(
            "batch of {} events {shown:?}… with fuel {fuel}",
            events.len()
        );
        describe(&name, lent, memory)
    };
    assert_eq!((refusal, out), (wanted.refusal, wanted.out), "{}", call());
    loan.expect(lent, &wanted.memory, &call);
    lent_events.expect(events, "events", &call);
    answers.expect(&wanted.answers, "answers", &call);
    memory.clone_from(&wanted.memory);
    wanted
}

/// Calls offer, go on and a batch of one event, all from this memory, with this fuel, and returns
/// their refusals.
#[track_caller]
pub fn refusals(lent: &Lent, memory: &Memory, event: u8, fuel: u32) -> [u32; 3] {
    [
        offer(lent, &mut memory.clone(), event, fuel).refusal,
        go_on(lent, &mut memory.clone(), fuel).refusal,
        batch(lent, &mut memory.clone(), &[event], fuel, 1).refusal,
    ]
}
