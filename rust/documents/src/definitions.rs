//! What a file defines. Lines are looked at one by one: the sources have one definition a line.

use std::collections::BTreeSet;

/// The names that a file defines.
#[derive(Clone, Debug, Default)]
pub struct Definitions {
    /// Functions, types, laws, fields, cases, clauses, constants: those of a record or a type also as `Type.field`, `Type::method`.
    pub named: BTreeSet<String>,
    /// Variables and labels inside functions.
    pub local: BTreeSet<String>,
}

impl Definitions {
    /// Those of a file, by the ending of its path.
    pub fn of(path: &str, text: &str) -> Definitions {
        match path.rsplit_once('.') {
            Some((_, "antt")) => antt(text),
            Some((_, "rt" | "rs")) => code(text),
            _ => Definitions::default(),
        }
    }

    /// Whether the name is defined, be it inside a function.
    pub fn have(&self, name: &str) -> bool {
        self.named.contains(name) || self.local.contains(name)
    }
}

/// A line without the words that may stand before a definition, and whether there were some.
fn without_modifiers(line: &str) -> (&str, bool) {
    let mut rest = line;
    let mut some = false;
    while let Some(next) = ["pub ", "abbrev ", "unfoldable ", "opaque "]
        .iter()
        .find_map(|word| rest.strip_prefix(word))
    {
        rest = next.trim_start();
        some = true;
    }
    (rest, some)
}

/// The first word of a line, up to a space or a bracket, and what is behind it.
fn first_word(line: &str) -> (&str, &str) {
    let end = line
        .find(|c: char| c.is_whitespace() || "(){}[],;".contains(c))
        .unwrap_or(line.len());
    line.split_at(end)
}

/// Definitions of antt: `name : type`, records with their fields, data with their cases.
fn antt(text: &str) -> Definitions {
    let mut found = Definitions::default();
    let mut inside: Option<(String, usize)> = None;
    for line in text.lines() {
        let trimmed = line.trim();
        if trimmed.is_empty() || trimmed.starts_with("--") {
            continue;
        }
        let indent = line.len() - line.trim_start().len();
        if inside.as_ref().is_some_and(|(_, outer)| indent <= *outer) {
            inside = None;
        }
        let (rest, modified) = without_modifiers(trimmed);
        let kind = ["record ", "data "]
            .iter()
            .find_map(|word| rest.strip_prefix(word));
        if let Some(rest) = kind {
            if indent == 0 || modified {
                let (name, _) = first_word(rest);
                found.named.insert(name.to_string());
                inside = Some((name.to_string(), indent));
                continue;
            }
        }
        let (name, behind) = first_word(rest);
        let behind = behind.trim_start();
        if name.is_empty() || !(behind == ":" || behind.starts_with(": ")) {
            continue;
        }
        let member = inside.as_ref().filter(|(_, outer)| indent == outer + 2);
        if let Some((outer, _)) = member {
            found.named.insert(format!("{outer}.{name}"));
        }
        if modified || indent <= 2 || member.is_some() {
            found.named.insert(name.to_string());
        }
    }
    found
}

/// The word at the beginning, of letters, digits and `_`.
fn identifier(text: &str) -> Option<&str> {
    let end = text
        .find(|c: char| !(c.is_alphanumeric() || c == '_'))
        .unwrap_or(text.len());
    (end > 0).then(|| &text[..end])
}

/// What stands behind the parameters that an `impl` begins with.
fn without_parameters(rest: &str) -> &str {
    let mut depth = 0;
    for (place, byte) in rest.bytes().enumerate() {
        match byte {
            b'<' => depth += 1,
            b'>' => depth -= 1,
            _ => {}
        }
        if depth == 0 {
            return if place == 0 { rest } else { &rest[place + 1..] };
        }
    }
    rest
}

/// Definitions of Rattle and Rust: functions and methods, types with their fields and cases, constants, modules, clauses of
/// contracts; inside functions variables and labels.
fn code(text: &str) -> Definitions {
    let mut found = Definitions::default();
    let mut methods_of: Option<String> = None;
    let mut inside: Option<String> = None;
    for line in text.lines() {
        let trimmed = line.trim();
        if trimmed.starts_with("//") {
            continue;
        }
        if line.starts_with('}') {
            methods_of = None;
            inside = None;
        }
        if let Some(rest) = line.strip_prefix("impl") {
            let rest = rest.split(" for ").last().unwrap_or(rest);
            let rest = without_parameters(rest.trim_start());
            methods_of = identifier(rest.trim_start()).map(str::to_string);
        }
        let mut words = trimmed;
        while let Some(next) = [
            "pub(crate) ",
            "pub ",
            "extern \"C\" ",
            "const fn ",
            "unsafe ",
        ]
        .iter()
        .find_map(|word| words.strip_prefix(word).map(|rest| (word, rest)))
        {
            words = next.1;
            if *next.0 == "const fn " {
                if let Some(name) = identifier(words) {
                    found.named.insert(name.to_string());
                }
            }
        }
        if let Some(name) = words.strip_prefix("fn ").and_then(identifier) {
            found.named.insert(name.to_string());
            if let Some(outer) = &methods_of {
                found.named.insert(format!("{outer}::{name}"));
            }
            continue;
        }
        let kind = [
            "struct ", "enum ", "const ", "mod ", "type ", "trait ", "static ",
        ]
        .iter()
        .find_map(|word| words.strip_prefix(word));
        if let Some(name) = kind.and_then(identifier) {
            found.named.insert(name.to_string());
            let opens = words.starts_with("struct ") || words.starts_with("enum ");
            if opens && words.ends_with('{') {
                inside = Some(name.to_string());
            }
            if let Some(outer) = &methods_of {
                found.named.insert(format!("{outer}::{name}"));
            }
            continue;
        }
        for word in ["ensures ", "requires "] {
            let clause = words.strip_prefix(word).and_then(identifier);
            if let Some(name) = clause {
                found.named.insert(name.to_string());
            }
        }
        if let (Some(outer), Some(name)) = (&inside, identifier(words)) {
            found.named.insert(name.to_string());
            found.named.insert(format!("{outer}::{name}"));
        }
        if let Some(rest) = words.strip_prefix("let ") {
            let rest = rest.strip_prefix("mut ").unwrap_or(rest);
            if let Some(name) = identifier(rest) {
                found.local.insert(name.to_string());
            }
        }
        if let Some(rest) = words.strip_prefix('\'') {
            if let Some(name) = identifier(rest).filter(|name| rest[name.len()..].starts_with(':'))
            {
                found.local.insert(name.to_string());
            }
        }
    }
    found
}

#[cfg(test)]
mod tests {
    use super::Definitions;

    #[test]
    fn of_antt() {
        let text = "\
-- comment : no
pub record Agrees (rules : List Rule) : Type 0 where
  -- said
  pub rewriter :
      some type
  pub balance : a ≡ b

pub data Right : Type 0 where
  Put : List ℕ → Right

unfoldable pub over : List ℕ → List ℕ
over v area = v
  where
    inner : ℕ
    inner = 0
module _ (a : ℕ) where
  module _ (b : ℕ) where
      pub table-written : a ≡ b
      table-written = refl
";
        let found = Definitions::of("Promise.antt", text);
        for name in [
            "Agrees",
            "Agrees.rewriter",
            "balance",
            "Right.Put",
            "Put",
            "over",
            "table-written",
        ] {
            assert!(found.have(name), "{name}");
        }
        for name in ["inner", "comment", "Right.balance", "rules", "module"] {
            assert!(!found.have(name), "{name}");
        }
    }

    #[test]
    fn of_code() {
        let text = "\
pub enum Checked {
    Passed,
    Refused(u32),
}

impl<'a> Table<'a> {
    pub fn next(self) -> usize
    {
        self.width
    }
}

impl Head {
    pub fn offer(self, event: u8) -> Returned
        ensures promise { λ r. r }
        requires { ⌜ a ⌝ }
    {
        let mut left = 0;
        'tokens: loop {}
    }
}

fn played() {}
";
        let found = Definitions::of("lib.rt", text);
        for name in [
            "Table::next",
            "Checked::Refused",
            "Passed",
            "Head::offer",
            "offer",
            "promise",
            "played",
        ] {
            assert!(found.named.contains(name), "{name}");
        }
        for name in ["left", "tokens"] {
            assert!(found.local.contains(name), "{name}");
        }
        for name in ["Head::played", "event", "λ"] {
            assert!(!found.have(name), "{name}");
        }
    }
}
