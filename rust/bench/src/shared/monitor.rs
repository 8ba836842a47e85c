/*!
What both monitors share: the calls with their refusals, and what is lent.

Table, head and areas are the library's, and so are the checks: image and table, the areas' lengths,
and head and areas themselves at each single call, and once in a batch. The functions have the
parameters that the C functions have. How a call runs is the monitors' own.
*/

/// The number of symbols that there is room for, and the length of each area.
pub const ROOM: usize = 2_048;

/// The largest place in an area. `place & LAST` is `place`, and needs no bounds check.
pub const LAST: usize = ROOM - 1;

const OTHER_LENGTH: u32 = 10;
const NOT_DESCRIBED: u32 = 11;
const NO_EVENT: u32 = 12;
const TOO_MUCH_FUEL: u32 = 13;
const VERDICT_STANDS: u32 = 14;
const NO_ROOM: u32 = 15;
const BATCH_LENGTH: u32 = 16;

const MAX_FUEL: u32 = 65_535;
const MAX_EVENTS: usize = 65_535;

pub const QUIET: u64 = 0;
pub const SPENT: u64 = 1;
pub const FULL: u64 = 2;

/// One of the two ways to write the monitor.
pub trait Kind {
    type Rules<'a>: Rules<'a>;
}

/// A valid image and its table, taken apart, and what is done with them.
pub trait Rules<'a>: Sized {
    /// Returns 0 if the table is that of the image, or refusal 7 or 9.
    fn check_table(image: &[u8], table: &[u16]) -> u32;
    /// An image and a table that were checked.
    fn new(image: &'a [u8], table: &'a [u16]) -> Self;
    /// S, the number of symbols.
    fn symbols(&self) -> usize;
    /// E, the number of events.
    fn events(&self) -> u8;
    /// The four bytes of each rule.
    fn contents(&self) -> &'a [[u8; 4]];
    /// Whether these words are the states after these symbols, and none of them matches.
    fn are_states(&self, symbols: &[u8], words: &[u16]) -> bool;
    /// Whether all these bytes and words are 0.
    fn are_zero(bytes: &[u8], words: &[u16]) -> bool;
    /// A single call's run: answer, steps, rewrites, symbols put back. No verdict stands, and
    /// `first` is the first waiting symbol.
    fn run_once(monitor: &mut Monitor<'a, Self>, first: u8, fuel: u32) -> [u64; 4];
    /// A batch: its stop, the number of accepted events, steps, rewrites, symbols put back.
    fn run_all(
        monitor: &mut Monitor<'a, Self>,
        events: &[u8],
        fuel: u32,
        answers: &mut [u8],
    ) -> [u64; 5];

    /// Whether a verdict and its rule in a head go together; 0 is no verdict.
    #[inline(always)]
    fn verdict_is_of_rule(&self, verdict: u64, rule: u64) -> bool {
        if verdict == 0 {
            return rule == 0;
        }
        let entry = usize::try_from(rule)
            .ok()
            .and_then(|rule| self.contents().get(rule));
        matches!(entry, Some(&[_, 1, number, _]) if u64::from(number) + 1 == verdict)
    }

    /// Whether all these bytes are symbols.
    #[inline]
    fn are_symbols(&self, bytes: &[u8]) -> bool {
        usize::from(bytes.iter().fold(0, |most, &byte| byte.max(most))) < self.symbols()
    }
}

/// A monitor whose head and areas were checked.
pub struct Monitor<'a, R> {
    pub rules: R,
    pub bytes: &'a mut [u8; ROOM],
    pub words: &'a mut [u16; ROOM],
    /// The number of settled symbols.
    pub settled: usize,
    /// Where the waiting symbols begin.
    pub begin: usize,
    /// The verdict + 1, or 0.
    pub verdict: u64,
    /// The verdict's rule.
    pub rule: u64,
}

impl<'a, R: Rules<'a>> Monitor<'a, R> {
    /// What was lent, or refusal 7, 9, 10 or 11.
    #[inline]
    fn check(
        image: &'a [u8],
        table: &'a [u16],
        head: &[u64; 4],
        bytes: &'a mut [u8],
        words: &'a mut [u16],
    ) -> Result<Self, u32> {
        match R::check_table(image, table) {
            0 => {}
            refusal => return Err(refusal),
        }
        let bytes: &mut [u8; ROOM] = bytes.try_into().map_err(|_| OTHER_LENGTH)?;
        let words: &mut [u16; ROOM] = words.try_into().map_err(|_| OTHER_LENGTH)?;
        let rules = R::new(image, table);
        let [settled, waiting, verdict, rule] = *head;
        if settled > ROOM as u64 || waiting > ROOM as u64 - settled {
            return Err(NOT_DESCRIBED);
        }
        let settled = settled as usize;
        let begin = ROOM - waiting as usize;
        let described = rules.verdict_is_of_rule(verdict, rule)
            && R::are_zero(&bytes[settled..begin], &words[settled..])
            && rules.are_symbols(&bytes[begin..])
            && rules.are_symbols(&bytes[..settled])
            && rules.are_states(&bytes[..settled], &words[..settled]);
        if !described {
            return Err(NOT_DESCRIBED);
        }
        Ok(Monitor {
            rules,
            bytes,
            words,
            settled,
            begin,
            verdict,
            rule,
        })
    }

    fn head(&self) -> [u64; 4] {
        [self.settled as u64, self.waiting(), self.verdict, self.rule]
    }

    /// The number of waiting symbols.
    pub fn waiting(&self) -> u64 {
        (ROOM - self.begin) as u64
    }

    /// Refusal 12 of an event.
    #[inline(always)]
    fn check_event(&self, event: u8) -> Result<(), u32> {
        if event >= self.rules.events() {
            return Err(NO_EVENT);
        }
        Ok(())
    }

    /// Refusal 14 or 15 of an event.
    #[inline(always)]
    fn check_room(&self) -> Result<(), u32> {
        if self.verdict != 0 {
            return Err(VERDICT_STANDS);
        }
        if self.settled == self.begin {
            return Err(NO_ROOM);
        }
        Ok(())
    }

    /// Makes an event the last waiting symbol, and returns the first. There is room for it.
    #[inline(always)]
    fn take(&mut self, event: u8) -> u8 {
        let mut first = event;
        if self.begin < ROOM {
            first = self.bytes[self.begin];
            self.bytes.copy_within(self.begin.., self.begin - 1);
        }
        self.begin -= 1;
        self.bytes[LAST] = event;
        first
    }

    /// Takes the events of a batch up to the first that is refused, and runs after each: `run` gets
    /// the first waiting symbol and returns the answer. Returns the stop and the number of accepted
    /// events.
    #[inline(always)]
    pub fn take_each(
        &mut self,
        events: &[u8],
        answers: &mut [u8],
        mut run: impl FnMut(&mut Self, u8) -> u64,
    ) -> [u64; 2] {
        let mut accepted = 0;
        for (&event, place) in events.iter().zip(answers) {
            if let Err(refusal) = self.check_event(event).and(self.check_room()) {
                return [refusal.into(), accepted];
            }
            let first = self.take(event);
            *place = run(self, first) as u8;
            accepted += 1;
        }
        [0, accepted]
    }
}

/// Refusal 13.
fn check_fuel(fuel: u32) -> Result<(), u32> {
    if fuel > MAX_FUEL {
        return Err(TOO_MUCH_FUEL);
    }
    Ok(())
}

/// Takes an event and runs: returns 0 or a refusal.
// Not inlined, as the library is not: the benchmark's loop must not see what is called.
#[inline(never)]
#[allow(clippy::too_many_arguments)]
pub fn offer<K: Kind>(
    image: &[u8],
    table: &[u16],
    head: &mut [u64; 4],
    bytes: &mut [u8],
    words: &mut [u16],
    event: u8,
    fuel: u32,
    out: &mut [u64; 4],
) -> u32 {
    *out = [0; 4];
    refusal(move || {
        let mut monitor = Monitor::<K::Rules<'_>>::check(image, table, head, bytes, words)?;
        monitor.check_event(event)?;
        check_fuel(fuel)?;
        monitor.check_room()?;
        let first = monitor.take(event);
        *out = Rules::run_once(&mut monitor, first, fuel);
        *head = monitor.head();
        Ok(())
    })
}

/// Runs: returns 0 or a refusal.
#[inline(never)]
pub fn go_on<K: Kind>(
    image: &[u8],
    table: &[u16],
    head: &mut [u64; 4],
    bytes: &mut [u8],
    words: &mut [u16],
    fuel: u32,
    out: &mut [u64; 4],
) -> u32 {
    *out = [0; 4];
    refusal(move || {
        let mut monitor = Monitor::<K::Rules<'_>>::check(image, table, head, bytes, words)?;
        check_fuel(fuel)?;
        if monitor.verdict != 0 {
            return Err(VERDICT_STANDS);
        }
        // With nothing waiting this is no symbol, and not looked at.
        let first = monitor.bytes[monitor.begin & LAST];
        *out = Rules::run_once(&mut monitor, first, fuel);
        *head = monitor.head();
        Ok(())
    })
}

/// Takes events one after another and runs after each: returns 0 or a refusal.
#[inline(never)]
#[allow(clippy::too_many_arguments)]
pub fn batch<K: Kind>(
    image: &[u8],
    table: &[u16],
    head: &mut [u64; 4],
    bytes: &mut [u8],
    words: &mut [u16],
    events: &[u8],
    fuel: u32,
    answers: &mut [u8],
    out: &mut [u64; 5],
) -> u32 {
    *out = [0; 5];
    refusal(move || {
        let mut monitor = Monitor::<K::Rules<'_>>::check(image, table, head, bytes, words)?;
        check_fuel(fuel)?;
        if events.len() > MAX_EVENTS || answers.len() < events.len() {
            return Err(BATCH_LENGTH);
        }
        *out = Rules::run_all(&mut monitor, events, fuel, answers);
        *head = monitor.head();
        Ok(())
    })
}

/// The refusal of a call as a number, 0 for none.
#[inline(always)]
fn refusal(call: impl FnOnce() -> Result<(), u32>) -> u32 {
    call().err().unwrap_or(0)
}
