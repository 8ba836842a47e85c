//! The repository: its files, what they define, the headings of its pages, its must-fail edits.

use std::collections::{BTreeMap, BTreeSet};
use std::fs;
use std::path::Path;

use crate::definitions::Definitions;

/// The files of the repository. Paths are relative to its root, with `/` between their parts.
#[derive(Clone, Debug, Default)]
pub struct Tree {
    files: BTreeSet<String>,
    folders: BTreeSet<String>,
    defined: BTreeMap<String, Definitions>,
    headings: BTreeMap<String, Vec<String>>,
}

impl Tree {
    /// The files below the root, but for what is built and for `.git`.
    ///
    /// # Panics
    ///
    /// Where a file cannot be read.
    pub fn read(root: &Path) -> Tree {
        let mut tree = Tree::default();
        tree.read_folder(root, "");
        tree
    }

    fn read_folder(&mut self, folder: &Path, below: &str) {
        let entries =
            fs::read_dir(folder).unwrap_or_else(|error| panic!("{}: {error}", folder.display()));
        for entry in entries {
            let entry = entry.expect("an entry of a folder");
            let name = entry.file_name().into_string().expect("a name in UTF-8");
            if name == "target" || name == ".git" {
                continue;
            }
            let path = format!("{below}{name}");
            if entry.file_type().expect("a kind of file").is_dir() {
                self.read_folder(&entry.path(), &format!("{path}/"));
                continue;
            }
            let looked_at = ["antt", "rt", "rs", "md"]
                .iter()
                .any(|end| name.ends_with(&format!(".{end}")));
            let text = if looked_at {
                fs::read_to_string(entry.path()).unwrap_or_else(|error| panic!("{path}: {error}"))
            } else {
                String::new()
            };
            self.add(&path, &text);
        }
    }

    /// One more file.
    pub fn add(&mut self, path: &str, text: &str) {
        let mut folder = path;
        while let Some((above, _)) = folder.rsplit_once('/') {
            self.folders.insert(above.to_string());
            folder = above;
        }
        self.defined
            .insert(path.to_string(), Definitions::of(path, text));
        if path.ends_with(".md") {
            self.headings.insert(path.to_string(), headings(text));
        }
        self.files.insert(path.to_string());
    }

    /// Whether there is such a file or folder.
    pub fn has(&self, path: &str) -> bool {
        let path = path.trim_end_matches('/');
        self.files.contains(path) || self.folders.contains(path) || path.is_empty()
    }

    /// Whether the page has a heading with this fragment.
    pub fn has_heading(&self, page: &str, fragment: &str) -> bool {
        self.headings
            .get(page)
            .is_some_and(|headings| headings.iter().any(|heading| heading == fragment))
    }

    /// Whether the file defines the name.
    pub fn defines(&self, file: &str, name: &str) -> bool {
        self.defined
            .get(file)
            .is_some_and(|defined| defined.have(name))
    }

    /// Whether some file of `crates/` or `rust/` defines the name, outside functions; or, with a crate before it, one of that crate.
    pub fn knows(&self, name: &str) -> bool {
        let anywhere = |below: &str, name: &str| {
            self.defined
                .iter()
                .any(|(file, defined)| file.starts_with(below) && defined.named.contains(name))
        };
        if self.is_crate(name) || anywhere("crates/", name) || anywhere("rust/", name) {
            return true;
        }
        match name.split_once("::") {
            Some((of, name)) if self.is_crate(of) => {
                let last = name.rsplit("::").next().unwrap_or(name);
                let below = format!("crates/{of}/");
                anywhere(&below, name) || anywhere(&below, last)
            }
            _ => false,
        }
    }

    /// Whether it is a crate of `crates/`, or a package of `rust/`.
    pub fn is_crate(&self, name: &str) -> bool {
        let one = |above: &str| self.folders.contains(&format!("{above}/{name}/src"));
        one("crates") || one("rust")
    }

    /// All paths, of files and folders.
    pub fn all(&self) -> impl Iterator<Item = &str> {
        self.files.iter().chain(&self.folders).map(String::as_str)
    }

    /// All must-fail edits: the crate's folder `crates/C/must-fail`, and the edit's name.
    pub fn edits(&self) -> BTreeSet<(String, String)> {
        self.files
            .iter()
            .filter_map(|file| file.strip_suffix(".edit")?.rsplit_once('/'))
            .map(|(folder, name)| (folder.to_string(), name.to_string()))
            .collect()
    }
}

/// The fragments of the headings of a page, as GitHub makes them.
fn headings(text: &str) -> Vec<String> {
    let mut fenced = false;
    let mut found: Vec<String> = Vec::new();
    for line in text.lines() {
        if line.trim_start().starts_with("```") {
            fenced = !fenced;
        }
        let title = line.trim_start_matches('#');
        if fenced || title.len() == line.len() || !title.starts_with(' ') {
            continue;
        }
        let slug: String = title
            .trim()
            .to_lowercase()
            .chars()
            .filter(|c| c.is_alphanumeric() || " -_".contains(*c))
            .map(|c| if c == ' ' { '-' } else { c })
            .collect();
        let same = found.iter().filter(|other| **other == slug).count();
        found.push(if same == 0 {
            slug
        } else {
            format!("{slug}-{same}")
        });
    }
    found
}

#[cfg(test)]
mod tests {
    use super::headings;

    #[test]
    fn fragments_of_headings() {
        let page = "# Program `watch`\n\n## What is assumed, and why\n```\n# no heading\n```\n#no heading\n## What is assumed, and why\n";
        assert_eq!(
            headings(page),
            [
                "program-watch",
                "what-is-assumed-and-why",
                "what-is-assumed-and-why-1"
            ]
        );
    }
}
