//! A page: its blocks, the words in backticks, and what is wrong with them.

use std::collections::BTreeSet;
use std::fmt;

use crate::tree::Tree;

/// The labels of an entry's items, in their order, with the paths that may stand behind each: the path has one of these parts.
pub const LABELS: [(&str, &[&str]); 10] = [
    ("statement", &["/specs/"]),
    ("definition", &["/specs/", "/src/"]),
    ("code", &["/src/"]),
    ("contract", &["/src/"]),
    ("theorem", &["/proofs/"]),
    ("laws", &["/proofs/", "/specs/"]),
    ("computed", &["/proofs/"]),
    ("tests", &["rust/"]),
    ("edits", &["/must-fail"]),
    ("note", &[""]),
];

/// Words in backticks that look like names and are none of the repository's.
const WORDS: [&str; 35] = [
    // Rattle and antt
    "requires",
    "ensures",
    "result",
    "refl",
    "self",
    "pub",
    "if",
    "u32",
    "u64",
    "usize",
    "Option",
    "Some",
    "None",
    "Result",
    "Ok",
    "Err",
    "x.now",
    "x.old",
    "x.new",
    // what an answer cites
    "c.args",
    "c.requires",
    "c.word.result",
    "c.word.ensures",
    "c.if-size-k.true",
    "c.if-size-k.false",
    "c.in-Passed.is",
    "c.loop-k.invariant",
    "l.at",
    "l.initial.at",
    // outside the repository
    "libc::read",
    "libc::write",
    "os::c::rattle_errno",
    "Read::read",
    "Write::write_all",
    "paste",
];

/// What is wrong, and the line where its block begins.
#[derive(Clone, Debug, PartialEq, Eq)]
pub struct Fault {
    /// The line, from 1.
    pub line: usize,
    /// What is wrong there.
    pub what: String,
}

impl fmt::Display for Fault {
    fn fmt(&self, out: &mut fmt::Formatter<'_>) -> fmt::Result {
        write!(out, "line {}: {}", self.line, self.what)
    }
}

/// What a word in backticks is.
#[derive(Clone, Copy, Debug, PartialEq, Eq)]
pub enum Kind {
    /// A file or a folder.
    Path,
    /// A name that something defines.
    Name,
    /// Anything else.
    Code,
}

impl Kind {
    /// The kind of a word.
    pub fn of(word: &str) -> Kind {
        let endings = [".antt", ".rt", ".rs", ".md", ".edit", ".toml", ".txt"];
        let plain = word
            .chars()
            .all(|c| c.is_ascii_alphanumeric() || "_./*+-".contains(c));
        let named = word.chars().any(|c| c.is_ascii_alphanumeric());
        if plain && named && (word.contains('/') || endings.iter().any(|end| word.ends_with(end))) {
            return Kind::Path;
        }
        let parts: Vec<&str> = word.split("::").flat_map(|part| part.split('.')).collect();
        let long = word.chars().count() > 1;
        let part_of_name = |part: &&str| {
            part.starts_with(|c: char| c.is_alphabetic() || c == '_')
                && part
                    .chars()
                    .all(|c| c.is_alphanumeric() || "_-′·".contains(c))
        };
        if long && parts.iter().all(part_of_name) {
            Kind::Name
        } else {
            Kind::Code
        }
    }
}

#[derive(Clone, Copy, Debug, PartialEq, Eq)]
enum Shape {
    Heading,
    Paragraph,
    Item,
    Row,
}

/// Lines of a page that belong together, joined by spaces.
#[derive(Clone, Debug)]
struct Block {
    line: usize,
    shape: Shape,
    text: String,
}

/// A word in backticks, where it stands in its block, and whether it is inside double quotes.
#[derive(Clone, Debug)]
struct Span {
    from: usize,
    to: usize,
    word: String,
    quoted: bool,
}

/// What an item of a list begins with, taken off.
fn item(line: &str) -> Option<&str> {
    if let Some(rest) = line.strip_prefix("- ") {
        return Some(rest);
    }
    let (number, rest) = line.split_once(". ")?;
    (!number.is_empty() && number.chars().all(|c| c.is_ascii_digit())).then_some(rest)
}

/// The blocks of a page. Fenced and indented code is left out.
fn blocks(page: &str) -> Vec<Block> {
    let mut blocks: Vec<Block> = Vec::new();
    let mut open = false;
    let mut fenced = false;
    for (number, line) in page.lines().enumerate() {
        let trimmed = line.trim();
        if trimmed.starts_with("```") {
            fenced = !fenced;
            open = false;
            continue;
        }
        if fenced {
            continue;
        }
        if trimmed.is_empty() {
            open = false;
            continue;
        }
        let indent = line.len() - line.trim_start().len();
        if indent >= 4 && !open {
            continue;
        }
        let (shape, text) = if line.starts_with('#') {
            (Shape::Heading, trimmed)
        } else if line.starts_with('|') {
            (Shape::Row, trimmed)
        } else if let Some(rest) = item(trimmed) {
            (Shape::Item, rest)
        } else if open {
            let block = blocks.last_mut().expect("a block is open");
            block.text.push(' ');
            block.text += trimmed;
            continue;
        } else {
            (Shape::Paragraph, trimmed)
        };
        blocks.push(Block {
            line: number + 1,
            shape,
            text: text.to_string(),
        });
        open = matches!(shape, Shape::Paragraph | Shape::Item);
    }
    blocks
}

impl Block {
    fn fault(&self, what: impl Into<String>) -> Fault {
        Fault {
            line: self.line,
            what: what.into(),
        }
    }

    /// The words in backticks; none where a backtick or a quote is left open.
    fn spans(&self) -> Option<Vec<Span>> {
        let mut spans = Vec::new();
        let mut quoted = false;
        let mut open: Option<usize> = None;
        for (at, c) in self.text.char_indices() {
            match (c, open) {
                ('`', None) => open = Some(at),
                ('`', Some(from)) => {
                    spans.push(Span {
                        from,
                        to: at + 1,
                        word: self.text[from + 1..at].to_string(),
                        quoted,
                    });
                    open = None;
                }
                ('"', None) => quoted = !quoted,
                _ => {}
            }
        }
        (open.is_none() && !quoted).then_some(spans)
    }

    /// The label and the rest of an item.
    fn label(&self) -> Option<(&str, &str)> {
        let (label, rest) = self.text.split_once(':')?;
        label
            .chars()
            .all(|c| c.is_ascii_lowercase())
            .then_some((label, rest))
    }

    fn is_entry(&self) -> bool {
        self.shape == Shape::Paragraph && self.text.starts_with("**") && self.text.ends_with("**")
    }
}

/// The blocks of a page, each with the label that it has as an item of an entry.
fn labelled(page: &str) -> Vec<(Block, Option<String>)> {
    let mut inside = false;
    blocks(page)
        .into_iter()
        .map(|block| {
            if block.shape != Shape::Item {
                inside = block.is_entry();
                return (block, None);
            }
            let label = block
                .label()
                .filter(|_| inside)
                .map(|(label, _)| label.to_string());
            (block, label)
        })
        .collect()
}

/// The path of a page of proofs, from the root: below `crates/`, below `rust/`, or as it is. A `*` stands for any part of a name.
fn found(tree: &Tree, path: &str) -> Option<String> {
    let path = path.trim_end_matches('/');
    [
        format!("crates/{path}"),
        format!("rust/{path}"),
        path.to_string(),
    ]
    .into_iter()
    .find(|path| tree.has(path) || matches_some(tree, path))
}

/// Whether a path with a `*` is that of some file.
fn matches_some(tree: &Tree, path: &str) -> bool {
    path.contains('*') && tree.all().any(|other| matches(path, other))
}

/// Whether the path is this one, where a `*` stands for any part of a name.
fn matches(path: &str, other: &str) -> bool {
    let Some((begin, rest)) = path.split_once('*') else {
        return path == other;
    };
    let Some(behind) = other.strip_prefix(begin) else {
        return false;
    };
    let ends = behind
        .char_indices()
        .map(|(at, c)| (at, c == '/'))
        .chain([(behind.len(), true)]);
    for (at, last) in ends {
        if matches(rest, &behind[at..]) {
            return true;
        }
        if last {
            break;
        }
    }
    false
}

/// Whether the other path, or what is left of it without folders at its beginning, is this one.
fn ends_with(path: &str, other: &str) -> bool {
    matches(path, other)
        || other
            .match_indices('/')
            .any(|(at, _)| matches(path, &other[at + 1..]))
}

/// Whether the name is defined in what the path leads to: in the file, in some file of the folder, or an edit there.
fn is_in(tree: &Tree, path: &str, name: &str) -> bool {
    if path.ends_with("/must-fail") {
        return tree.has(&format!("{path}/{name}.edit"));
    }
    let below = format!("{path}/");
    tree.defines(path, name)
        || tree
            .all()
            .any(|file| file.starts_with(&below) && tree.defines(file, name))
}

/// The names of a block with the path that stands behind them, none where there is none. `every`: any name before a path belongs
/// to it; otherwise those alone that are listed right before it.
fn grouped(block: &Block, spans: &[Span], every: bool) -> Vec<(String, Option<String>)> {
    let spans: Vec<&Span> = spans.iter().filter(|span| !span.quoted).collect();
    let mut groups: Vec<(String, Option<String>)> = Vec::new();
    let mut waiting: Vec<&Span> = Vec::new();
    for span in spans {
        let between = waiting.last().map(|last| &block.text[last.to..span.from]);
        let joined = match Kind::of(&span.word) {
            Kind::Code => continue,
            Kind::Name => {
                between.is_some_and(|text| [", ", " and ", ", and ", " of ", ": "].contains(&text))
            }
            Kind::Path => between.is_some_and(|text| [" in ", ", in "].contains(&text)),
        };
        if !(joined || every) {
            groups.extend(waiting.drain(..).map(|name| (name.word.clone(), None)));
        }
        if Kind::of(&span.word) == Kind::Path {
            let path = Some(span.word.clone());
            groups.extend(
                waiting
                    .drain(..)
                    .map(|name| (name.word.clone(), path.clone())),
            );
        } else {
            waiting.push(span);
        }
    }
    groups.extend(waiting.into_iter().map(|name| (name.word.clone(), None)));
    groups
}

/// Every name of a page is defined: in the file that stands behind it, or somewhere.
pub fn names(tree: &Tree, page: &str) -> Vec<Fault> {
    let mut faults = Vec::new();
    for (block, label) in labelled(page) {
        let Some(spans) = block.spans() else {
            faults.push(block.fault("a backtick or a quote is left open"));
            continue;
        };
        let every = label.as_deref().is_some_and(|label| label != "note");
        for (name, path) in grouped(&block, &spans, every) {
            match path {
                Some(path) => {
                    if let Some(file) = found(tree, &path) {
                        if !is_in(tree, &file, &name) {
                            faults.push(block.fault(format!("`{name}` is not in `{path}`")));
                        }
                    }
                }
                None if every => {
                    faults.push(block.fault(format!("`{name}` has no file behind it")))
                }
                None if WORDS.contains(&name.as_str()) || tree.knows(&name) => {}
                None => faults.push(block.fault(format!("`{name}` is defined nowhere"))),
            }
        }
    }
    faults
}

/// Each entry of a page has items, each with a label, in their order, and paths that suit it.
pub fn entries(tree: &Tree, page: &str) -> Vec<Fault> {
    let mut faults = Vec::new();
    // the entry, the number of its items, and the first label that the next item may have
    let mut entry: Option<(Block, usize, usize)> = None;
    for (block, label) in labelled(page) {
        if block.shape != Shape::Item {
            faults.extend(without_items(entry.take()));
            entry = block.is_entry().then_some((block, 0, 0));
            continue;
        }
        let Some((_, items, least)) = &mut entry else {
            continue;
        };
        *items += 1;
        let known = LABELS
            .iter()
            .position(|(known, _)| label.as_deref() == Some(*known));
        let Some(at) = known else {
            faults.push(block.fault("an item of an entry without a label"));
            continue;
        };
        if at < *least {
            faults.push(block.fault(format!("`{}` is out of order", LABELS[at].0)));
        }
        *least = at + 1;
        for span in block.spans().unwrap_or_default() {
            let suits = |path: String| LABELS[at].1.iter().any(|part| path.contains(part));
            if Kind::of(&span.word) == Kind::Path && !found(tree, &span.word).is_none_or(suits) {
                faults.push(block.fault(format!("`{}` behind `{}`", span.word, LABELS[at].0)));
            }
        }
    }
    faults.extend(without_items(entry));
    faults
}

fn without_items(entry: Option<(Block, usize, usize)>) -> Option<Fault> {
    let (block, items, _) = entry?;
    (items == 0).then(|| block.fault("an entry without items"))
}

/// The edits that a page names: the folder, and the edit.
pub fn edits_named(tree: &Tree, page: &str) -> BTreeSet<(String, String)> {
    let mut edits = BTreeSet::new();
    for (block, label) in labelled(page) {
        let every = label.as_deref().is_some_and(|label| label != "note");
        for (name, path) in grouped(&block, &block.spans().unwrap_or_default(), every) {
            let folder = path.and_then(|path| found(tree, &path));
            if let Some(folder) = folder.filter(|folder| folder.ends_with("/must-fail")) {
                edits.insert((folder, name));
            }
        }
    }
    edits
}

/// Every path in backticks is there. A page of proofs names them as [`found`] has it; on another page the beginning may be left
/// out, and what is built below `target/` need not be there.
pub fn paths(tree: &Tree, page: &str, of_proofs: bool) -> Vec<Fault> {
    let mut faults = Vec::new();
    for block in blocks(page) {
        for span in block.spans().unwrap_or_default() {
            if span.quoted || Kind::of(&span.word) != Kind::Path {
                continue;
            }
            let path = span.word.trim_end_matches('/');
            let elsewhere =
                || path.starts_with("target/") || tree.all().any(|other| ends_with(path, other));
            if found(tree, path).is_none() && (of_proofs || !elsewhere()) {
                faults.push(block.fault(format!("`{}` is not there", span.word)));
            }
        }
    }
    faults
}

/// A path from the root, for a link on the page that is written from its folder.
fn from_root(page: &str, link: &str) -> Option<String> {
    let mut parts: Vec<&str> = page.split('/').collect();
    parts.pop();
    for part in link.split('/') {
        match part {
            "" | "." => {}
            ".." => {
                parts.pop()?;
            }
            part => parts.push(part),
        }
    }
    Some(parts.join("/"))
}

/// Every link of the page at this path leads to a file or folder and, where it has a fragment, to a heading.
pub fn links(tree: &Tree, path: &str, page: &str) -> Vec<Fault> {
    let mut faults = Vec::new();
    for block in blocks(page) {
        let spans = block.spans().unwrap_or_default();
        for (at, _) in block.text.match_indices("](") {
            if spans.iter().any(|span| span.from < at && at < span.to) {
                continue;
            }
            let rest = &block.text[at + 2..];
            let Some(end) = rest.find(')') else {
                faults.push(block.fault("a link is left open"));
                continue;
            };
            let link = &rest[..end];
            if link.starts_with("https://") || link.starts_with("http://") {
                continue;
            }
            let (file, fragment) = match link.split_once('#') {
                Some((file, fragment)) => (file, Some(fragment)),
                None => (link, None),
            };
            let target = if file.is_empty() {
                Some(path.to_string())
            } else {
                from_root(path, file)
            };
            match target.filter(|target| tree.has(target)) {
                None => faults.push(block.fault(format!("the link {link} leads nowhere"))),
                Some(target) => {
                    if fragment.is_some_and(|fragment| !tree.has_heading(&target, fragment)) {
                        faults.push(block.fault(format!("the link {link} leads to no heading")));
                    }
                }
            }
        }
    }
    faults
}

/// No line is longer than this, but for rows of tables.
pub fn width(page: &str, most: usize) -> Vec<Fault> {
    page.lines()
        .enumerate()
        .filter(|(_, line)| !line.starts_with('|') && line.chars().count() > most)
        .map(|(number, line)| Fault {
            line: number + 1,
            what: format!("a line of {} characters", line.chars().count()),
        })
        .collect()
}
