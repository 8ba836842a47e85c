//! The monitor: a string of symbols that is rewritten while events arrive.

use crate::{raw, Answer, Batch, Counts, Refusal, Rules, Run};

/// The number of symbols that a monitor has room for, and the length of each of its areas.
pub const ROOM: usize = 2_048;

/// The most fuel that a call takes.
pub const MAX_FUEL: u32 = 65_535;

/// The most events that a batch takes.
pub const MAX_EVENTS: usize = 65_535;

/// A monitor: the string of symbols that it holds, and perhaps a verdict.
///
/// The string begins with the settled symbols, in which no left side occurs; then come the waiting
/// ones. Each call takes the rules that the monitor follows. They should be the same for all calls:
/// with others the monitor may be refused as [`Refusal::NOT_DESCRIBED`].
///
/// A refused call changes nothing.
///
/// # Example
///
/// ```
/// use watcher::{Answer, Monitor, Refusal, Rules};
///
/// // `0 1` becomes `2`, and `2 2` becomes verdict 1. The events are 0 and 1.
/// let rules = Rules::new(&[
///     3, 2, 2, 2, // three symbols, two rules, two verdicts, two events
///     2, 0, 1, 0, // rule 0: two symbols become a string of one
///     2, 1, 1, 0, // rule 1: two symbols become verdict 1
///     0, 1, 2, // rule 0
///     2, 2, // rule 1
/// ])?;
///
/// let mut monitor = Monitor::new();
/// monitor.offer(&rules, 0, 1_000)?;
/// let run = monitor.offer(&rules, 1, 1_000)?;
/// assert_eq!(run.answer, Answer::Quiet);
/// assert_eq!((run.counts.steps, run.counts.rewrites, run.counts.put_back), (2, 1, 1));
/// assert_eq!(monitor.settled(), [2]);
///
/// monitor.offer(&rules, 0, 1_000)?;
/// // The event and the symbol that is put back take a step each.
/// let run = monitor.offer(&rules, 1, 1)?;
/// assert_eq!(run.answer, Answer::Spent);
/// assert_eq!(monitor.waiting(), [2]);
/// let run = monitor.go_on(&rules, 1)?;
/// assert_eq!(run.answer, Answer::Verdict(1));
/// assert_eq!((monitor.verdict(), monitor.rule()), (Some(1), Some(1)));
/// assert_eq!(monitor.offer(&rules, 0, 1_000), Err(Refusal::VERDICT_STANDS));
/// # Ok::<(), Refusal>(())
/// ```
#[derive(Clone, Debug, PartialEq, Eq)]
pub struct Monitor {
    /// Settled count, waiting count, verdict + 1 or 0 for none, the verdict's rule.
    head: [u64; 4],
    /// The settled symbols first, the waiting ones last.
    bytes: [u8; ROOM],
    /// The table's states after each settled symbol.
    words: [u16; ROOM],
}

impl Monitor {
    /// A monitor that holds no symbol and no verdict.
    pub fn new() -> Monitor {
        let mut monitor = Monitor {
            head: [0; 4],
            bytes: [0; ROOM],
            words: [0; ROOM],
        };
        monitor.reset();
        monitor
    }

    /// Makes the monitor hold no symbol and no verdict.
    pub fn reset(&mut self) {
        let result = raw::fresh(&mut self.head, &mut self.bytes, &mut self.words);
        Refusal::from_result(result).expect("both areas have the right length");
    }

    /// Takes an event as the last waiting symbol and runs for at most `fuel` steps.
    ///
    /// # Errors
    ///
    /// In this order: [`Refusal::NOT_DESCRIBED`] if the monitor followed other rules before,
    /// [`Refusal::NO_EVENT`], [`Refusal::TOO_MUCH_FUEL`], [`Refusal::VERDICT_STANDS`],
    /// [`Refusal::NO_ROOM`].
    pub fn offer(&mut self, rules: &Rules, event: u8, fuel: u32) -> Result<Run, Refusal> {
        let mut out = [0; 4];
        Refusal::from_result(raw::offer(
            rules.image(),
            rules.table(),
            &mut self.head,
            &mut self.bytes,
            &mut self.words,
            event,
            fuel,
            &mut out,
        ))?;
        Ok(run(out))
    }

    /// Runs for at most `fuel` steps.
    ///
    /// # Errors
    ///
    /// In this order: [`Refusal::NOT_DESCRIBED`] if the monitor followed other rules before,
    /// [`Refusal::TOO_MUCH_FUEL`], [`Refusal::VERDICT_STANDS`].
    pub fn go_on(&mut self, rules: &Rules, fuel: u32) -> Result<Run, Refusal> {
        let mut out = [0; 4];
        Refusal::from_result(raw::go_on(
            rules.image(),
            rules.table(),
            &mut self.head,
            &mut self.bytes,
            &mut self.words,
            fuel,
            &mut out,
        ))?;
        Ok(run(out))
    }

    /// Offers the events one after another, each with the same fuel, up to the first that is
    /// refused.
    ///
    /// The answer to each accepted event goes to its place in `answers`, as [`Answer::byte`] has it;
    /// later bytes keep their values. An event that is refused with [`Refusal::NO_EVENT`],
    /// [`Refusal::VERDICT_STANDS`] or [`Refusal::NO_ROOM`] ends the batch, and those before it stay
    /// accepted.
    ///
    /// # Errors
    ///
    /// In this order: [`Refusal::NOT_DESCRIBED`] if the monitor followed other rules before,
    /// [`Refusal::TOO_MUCH_FUEL`], [`Refusal::BATCH_LENGTH`].
    ///
    /// # Example
    ///
    /// ```
    /// use watcher::{Answer, Monitor, Refusal, Rules};
    ///
    /// // `0` becomes nothing. The events are 0 and 1; there are no others.
    /// let rules = Rules::new(&[2, 1, 2, 2, 1, 0, 0, 0, 0])?;
    /// let mut monitor = Monitor::new();
    /// let mut answers = [99; 5];
    /// let batch = monitor.batch(&rules, &[1, 0, 1, 2, 0], 1_000, &mut answers)?;
    /// assert_eq!(batch.stop, Some(Refusal::NO_EVENT));
    /// assert_eq!((batch.accepted, batch.counts.steps), (3, 3));
    /// assert_eq!(answers, [0, 0, 0, 99, 99]);
    /// assert_eq!(Answer::from_byte(answers[0]), Some(Answer::Quiet));
    /// assert_eq!(monitor.string(), [1, 1]);
    /// # Ok::<(), Refusal>(())
    /// ```
    pub fn batch(
        &mut self,
        rules: &Rules,
        events: &[u8],
        fuel: u32,
        answers: &mut [u8],
    ) -> Result<Batch, Refusal> {
        let mut out = [0; 5];
        Refusal::from_result(raw::batch(
            rules.image(),
            rules.table(),
            &mut self.head,
            &mut self.bytes,
            &mut self.words,
            events,
            fuel,
            answers,
            &mut out,
        ))?;
        let [stop, accepted, steps, rewrites, put_back] = out;
        Ok(Batch {
            // The stop is 0, 12, 14 or 15, and at most all events are accepted.
            stop: Refusal::from_result(stop as u32).err(),
            accepted: accepted as usize,
            counts: Counts {
                steps,
                rewrites,
                put_back,
            },
        })
    }

    /// The settled symbols.
    pub fn settled(&self) -> &[u8] {
        &self.bytes[..self.head[0] as usize]
    }

    /// The waiting symbols.
    pub fn waiting(&self) -> &[u8] {
        &self.bytes[ROOM - self.head[1] as usize..]
    }

    /// The string that the monitor holds: the settled symbols, then the waiting ones.
    pub fn string(&self) -> Vec<u8> {
        [self.settled(), self.waiting()].concat()
    }

    /// The verdict, if one stands.
    pub fn verdict(&self) -> Option<u8> {
        match self.head[2] {
            0 => None,
            // A verdict is at most 15.
            more => Some((more - 1) as u8),
        }
    }

    /// The number of the rule that set the verdict, if one stands.
    pub fn rule(&self) -> Option<u8> {
        // A rule's number is at most 63.
        self.verdict().map(|_| self.head[3] as u8)
    }
}

impl Default for Monitor {
    fn default() -> Monitor {
        Monitor::new()
    }
}

/// What the words that an accepted offer or go-on gives stand for.
fn run([answer, steps, rewrites, put_back]: [u64; 4]) -> Run {
    Run {
        // An answer is at most 31.
        answer: Answer::from_byte(answer as u8).expect("the core gives an answer's number"),
        counts: Counts {
            steps,
            rewrites,
            put_back,
        },
    }
}
