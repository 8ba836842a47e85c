/*!
A library that watches a stream of events by rewriting rules: it reads the rules from a text, compiles
them to a matching table and keeps the events' string rewritten while they arrive.

The functions here call the watcher's core, which is written in a language where each function is
proved to meet its contract and which is linked as a static C library. This crate gives its
functions safe Rust signatures and adds nothing else.

# Overview

* [`Rules`] is a rule image with its table, and with the [`Names`] of symbols and verdicts if it was
  read from a text.
* [`Monitor`] holds a string of symbols. Its [`offer`](Monitor::offer) takes an event,
  [`go_on`](Monitor::go_on) takes none, [`batch`](Monitor::batch) takes many.
* [`Run`] and [`Batch`] are what these give: an [`Answer`] and [`Counts`].
* [`Refusal`] is the number of the reason for which an operation did nothing.
* [`read_rules`] writes the image and the names of a rule text into areas that the caller lends.
* [`compile`] writes the table of a rule image into an area that the caller lends.
* [`check_table`] says whether an area begins with the table of a rule image.
* [`raw`] has the same operations with the parameters and the results of the C functions.

# Rule texts

A text is a run of tokens, separated by spaces, tabs, carriage returns or line feeds. A token is a name,
`#` and a name, `->`, `.` or `^`; a name is a letter followed by letters, digits or `_`, at most 24 bytes
in all.

First comes `events`, one or more names, and `.`: these are the events. Then come the rules, each of them
one or more names, `->`, and one or more names or a single `#` word, and `.`. A `^` may stand before the
names of the left side: it is the start mark, and such a left side occurs only at the string's first
symbol. `#epsilon` is the empty string; every other word is a verdict. `#fail` and `#succeed` are verdicts
0 and 1, other words get the next numbers in the order in which they first appear. So do names, which are
the symbols. No word is reserved: a symbol may be called `events` or `fail`.

A text has at most [`MAX_TEXT_BYTES`] bytes, 32 symbols, 64 rules, eight names on a side, and 14 verdicts
besides fail and succeed. Of a text that is refused the place is told too: that of the first token at
which it breaks.

# Rule images

An image is a run of bytes. Bytes 0 to 3 are the number of symbols S (1 to 32), the number of rules
(0 to 64), the number of verdicts (2 to 16) and the number of events (1 to S). Then each rule has
four bytes: the length of its left side (1 to 8), its kind (0 for a string, 1 for a verdict), the
length of its right side (0 to 8) or its verdict, and 1 if its left side has the start mark, else 0.
Then come, rule by rule, the symbols of the left side and, for a string, those of the right side, one
byte each. Nothing follows.

# Tables

A table is a run of 16-bit words: the number of states N, S, a match word for each state, and for
each state a row of S next states. It is the automaton of Aho and Corasick for the rules' left sides
with every transition filled in, so that reading a symbol is one look into the table. States are the
prefixes of left sides, numbered as they first appear; state 0 is the empty string. A match word is
0, or 1 + the number of the rule whose left side has just been read: the longest such left side, and
of equal ones the lowest rule.

If a rule is marked, the mark counts as a symbol that stands before the string, and a marked left side
begins with it: state 0 is the mark alone, where every string begins, and state 1 the empty string. So a
marked left side is read only at the start, and there it comes before the same symbols without a mark.

# Monitors

A monitor holds up to [`ROOM`] symbols: settled ones, in which no left side occurs, and then waiting
ones. A marked left side may stand in the middle of the settled ones, where it does not occur. An offer
adds its event to the waiting symbols. Then the call runs, one step after another. A step takes the first
waiting symbol onto the settled string. If a left side has been read, the longest that ends there, its
symbols are taken off, and those of the right side are put back before the waiting ones; or a verdict is
set, and nothing is put back. A call ends when a verdict stands, when no symbol waits, when as many steps
were taken as it was given fuel, or when the next step would leave more symbols than there is room for.

So the string is at each time what the events become when the occurrence of a left side that ends
first is rewritten, then the one that ends first in what that gives, and so on, for as many rewrites as
the calls reported. Of those that end together it is the one that begins first, then that of a marked
rule, then that of the lowest.

# Example: a small school's swaps

The symbols are `lock`, `take`, `free` and `held`; the first three are events. `lock take` becomes
`held`, `held free` becomes nothing, and any other `take` becomes verdict 0, which is fail.

```
use watcher::{Answer, Monitor, Refusal, Rules};

let (lock, take, free, held) = (0, 1, 2, 3);
let rules = Rules::new(&[
    4, 3, 2, 3, // four symbols, three rules, two verdicts, three events
    2, 0, 1, 0, // rule 0: two symbols become a string of one
    2, 0, 0, 0, // rule 1: two symbols become a string of none
    1, 1, 0, 0, // rule 2: one symbol becomes verdict 0
    lock, take, held, // rule 0
    held, free, // rule 1
    take, // rule 2
])?;

let mut monitor = Monitor::new();
monitor.offer(&rules, lock, 1_000)?;
let run = monitor.offer(&rules, take, 1_000)?;
assert_eq!(run.answer, Answer::Quiet);
assert_eq!((run.counts.steps, run.counts.rewrites), (2, 1));
assert_eq!(monitor.string(), [held]);

let mut answers = [0; 3];
let batch = monitor.batch(&rules, &[free, take, lock], 1_000, &mut answers)?;
assert_eq!(answers.map(Answer::from_byte)[..2], [Some(Answer::Quiet), Some(Answer::Verdict(0))]);
assert_eq!((batch.accepted, batch.stop), (2, Some(Refusal::VERDICT_STANDS)));
assert_eq!(monitor.verdict(), Some(0));
# Ok::<(), Refusal>(())
```

# Example: the same from a text

```
use watcher::{Answer, Monitor, Rules};

let rules = Rules::read(
    "events lock take free .
     lock take -> held .
     held free -> #epsilon .
     take -> #fail .",
)?;
let names = rules.names();

let mut monitor = Monitor::new();
let mut said = Vec::new();
for name in ["lock", "take", "free", "take"] {
    let event = names.symbol(name).expect("a name of the text");
    let run = monitor.offer(&rules, event, 1_000)?;
    said.push(match run.answer {
        Answer::Verdict(verdict) => names.name_of_verdict(verdict).expect("a verdict has a name"),
        _ => match monitor.string()[..] {
            [] => "nothing",
            [.., last] => names.name_of_symbol(last).expect("a symbol has a name"),
        },
    });
}
assert_eq!(said, ["lock", "held", "nothing", "fail"]);
# Ok::<(), Box<dyn std::error::Error>>(())
```

# Example: a rule for the start of the string

Without a `lock` before it, `take` is a failure; behind other symbols it stays.

```
use watcher::{Answer, Monitor, Rules};

let rules = Rules::read(
    "events lock take free .
     lock take -> held .
     held free -> #epsilon .
     ^ take -> #fail .",
)?;
let names = rules.names();
let [lock, take, free] = ["lock", "take", "free"].map(|name| names.symbol(name).expect("an event"));

let mut monitor = Monitor::new();
for event in [free, take] {
    assert_eq!(monitor.offer(&rules, event, 1_000)?.answer, Answer::Quiet);
}
assert_eq!(monitor.string(), [free, take]);

// What counts is the string as it stands: behind a `lock take free` nothing is left.
let mut monitor = Monitor::new();
for event in [lock, take, free] {
    assert_eq!(monitor.offer(&rules, event, 1_000)?.answer, Answer::Quiet);
}
assert_eq!(monitor.offer(&rules, take, 1_000)?.answer, Answer::Verdict(0));
# Ok::<(), Box<dyn std::error::Error>>(())
```

# Example: compiling two rules

There are two symbols, 0 and 1. The first rule turns `0 1` into nothing, the second turns `1` into
verdict 0.

```
use watcher::{check_table, compile, Refusal};

let image = [
    2, 2, 2, 2, // two symbols, two rules, two verdicts, two events
    2, 0, 0, 0, // rule 0: two symbols become a string of none
    1, 1, 0, 0, // rule 1: one symbol becomes verdict 0
    0, 1, // left side of rule 0
    1, // left side of rule 1
];

let mut table = [0; 20];
let words = compile(&image, &mut table)?;
assert_eq!(words, 14);
assert_eq!(
    table[..words],
    [
        4, 2, // four states, two symbols
        0, 0, 1, 2, // states 2 and 3 match rules 0 and 1
        1, 3, // from the empty string
        1, 2, // from `0`
        1, 3, // from `0 1`
        1, 3, // from `1`
    ]
);
assert_eq!(check_table(&image, &table), Ok(()));
# Ok::<(), Refusal>(())
```

# Example: refusals

A refused operation changes nothing that it was lent. That of a text has a place.

```
use watcher::{Refusal, Rules};

let refused = Rules::read("events ring. ring -> #fail .").unwrap_err();
assert_eq!(refused.refusal, Refusal::NO_TOKEN);
assert_eq!(refused.place, 7);
assert_eq!(refused.to_string(), "refused 3: not a token, at byte 7");
```

The others have none.

```
use watcher::{check_table, compile, Refusal};

// One symbol and no rules: the table has four words.
let image = [1, 0, 2, 1];

let mut short = [7; 3];
assert_eq!(compile(&image, &mut short), Err(Refusal::SHORT_AREA));
assert_eq!(short, [7; 3]);

assert_eq!(check_table(&image, &[1, 1, 0, 0]), Ok(()));
assert_eq!(check_table(&image, &[1, 1, 0, 1]), Err(Refusal::OTHER_TABLE));

let no_symbols = [0, 0, 2, 1];
assert_eq!(check_table(&no_symbols, &[]), Err(Refusal::BAD_IMAGE));
```
*/

#![deny(missing_docs, unsafe_op_in_unsafe_fn)]

mod answer;
mod monitor;
pub mod raw;
mod refusal;
mod rules;
mod table;
mod text;

pub use answer::{Answer, Batch, Counts, Run};
pub use monitor::{Monitor, MAX_EVENTS, MAX_FUEL, ROOM};
pub use refusal::Refusal;
pub use rules::Rules;
pub use table::{check_table, compile, MAX_IMAGE_BYTES, MAX_TABLE_WORDS};
pub use text::{read_rules, Names, TextRefusal, MAX_TEXT_BYTES, NAMES_BYTES};

// The examples of the workspace's README are tests.
#[cfg(doctest)]
#[doc = include_str!("../../README.md")]
struct Readme;
