/*!
A check of the documents: each link leads somewhere, each path is there, each name is defined, in the file that stands
behind it, and each must-fail edit is one.

[`Tree`] is the repository: its files, what each of them defines, the headings of its pages and its edits. [`links`], [`paths`],
[`names`], [`entries`] and [`width`] each look at one page and give its [`Fault`]s.

How a page of proofs is written:

- A word in backticks is a path, a name or code. A path has a `/` or a known ending, and is one below `crates/`, below `rust/` or
  at the root. A `*` stands for any part of a name. A name has two or more letters, digits, `_` and `-`, with `.` or `::` between its parts.
  All else is code and is not looked at, nor is anything in double quotes.
- Names before a path, as in "`a`, `b` in `path`", are defined in that file. Other names are defined somewhere.
- Behind the path of a folder `must-fail`, the names before it are edits there.
- An entry is a paragraph in bold and a list behind it. Each item of the list has a label of [`LABELS`], in that order; behind
  all but `note` each name has a path.
*/

#![forbid(unsafe_code)]
#![deny(missing_docs)]

mod definitions;
mod page;
mod tree;

pub use page::{edits_named, entries, links, names, paths, width, Fault, Kind, LABELS};
pub use tree::Tree;
