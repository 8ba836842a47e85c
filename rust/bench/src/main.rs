/*!
Times the library against the same work in safe Rust, written twice.

* [`plain`] is the library's own algorithms, written plainly.
* [`tuned`] is as fast as we could make safe Rust, with other algorithms where they are faster.

All sides first do the work once and must agree in every result, and again after each run.
[`timing`] says how they race.

* [`texts`] has read_rules.
* [`tables`] has compile and check_table.
* [`monitors`] has offers, goes-on and batches, and races the library also against a monitor that
  looks through its string again after every rewrite ([`rescan`]).

```text
cargo run --release -p bench [rounds [runs [part]]]
```

With a third argument only the rows are run whose group and name have it in them. With the feature
`before` an earlier library is one more side, the one in the folder that `WATCHER_BEFORE_DIR` names; the
script `links` compares it with today's in many links.
*/

#![forbid(unsafe_code)]

mod monitors;
mod rescan;
mod tables;
mod texts;
mod timing;

/// The library's own algorithms in safe Rust, written plainly.
mod plain {
    pub mod monitor;
    pub mod reader;
    pub mod tables;
}

/// Safe Rust as fast as we could make it.
mod tuned {
    pub mod monitor;
    pub mod reader;
    pub mod tables;
}

/// What is the same in both. Of the readers that is limits and classes alone.
mod shared {
    pub mod monitor;
    pub mod reader;
    pub mod tables;
}

use std::env;

/// Rounds for each race in a run, unless the command line names another number.
const ROUNDS: usize = 301;
/// Runs of all races, unless the command line names another number.
const RUNS: usize = 7;

fn main() {
    let [rounds, runs] = arguments().unwrap_or_else(|| {
        eprintln!("usage: bench [rounds [runs [part]]]");
        std::process::exit(2);
    });
    let mut groups = vec![texts::races(), tables::races()];
    groups.extend(monitors::races());
    for run in 1..=runs {
        for group in &mut groups {
            group.run(rounds);
        }
        eprintln!("run {run} of {runs}");
    }
    println!("Nanoseconds and library / other: the median of {runs} runs of {rounds} rounds each,");
    println!("and the least and the largest ratio of a run.");
    for group in &groups {
        group.print();
    }
}

/// Rounds and runs by the command line.
fn arguments() -> Option<[usize; 2]> {
    let mut numbers = [ROUNDS, RUNS];
    for (place, argument) in env::args().skip(1).take(2).enumerate() {
        let number = argument.parse().ok().filter(|&number| number > 0);
        *numbers.get_mut(place)? = number?;
    }
    Some(numbers)
}
