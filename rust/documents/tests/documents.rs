//! The documents of the repository.

use std::collections::BTreeSet;
use std::fs;
use std::path::{Path, PathBuf};

use documents::{edits_named, entries, links, names, paths, width, Fault, Tree};

/// No line of these is longer, but for rows of tables.
const WIDTH: usize = 130;
/// There are at least as many pages of proofs, and as many entries on them.
const PAGES: usize = 8;
const ENTRIES: usize = 140;

/// Pages whose names are checked as those of the pages of proofs are, and that have no entries.
const DESIGN: [&str; 2] = ["docs/DECISIONS.md", "docs/GLOSSARY.md"];
/// Pages whose links and paths are checked.
const OTHER: [&str; 4] = [
    "docs/PERFORMANCE.md",
    "docs/CHANGES.md",
    "README.md",
    "rust/README.md",
];
/// Of these, one that need not be there.
const OPTIONAL: &str = "docs/CHANGES.md";

fn root() -> PathBuf {
    Path::new(env!("CARGO_MANIFEST_DIR")).join("../..")
}

fn read(page: &str) -> String {
    fs::read_to_string(root().join(page)).unwrap_or_else(|error| panic!("{page}: {error}"))
}

/// `docs/PROOFS.md` and the pages that it leads to.
fn pages_of_proofs() -> Vec<String> {
    let folder = fs::read_dir(root().join("docs/proofs")).expect("the folder docs/proofs");
    let mut pages: Vec<String> = folder
        .map(|entry| {
            entry
                .expect("an entry")
                .file_name()
                .into_string()
                .expect("UTF-8")
        })
        .map(|name| format!("docs/proofs/{name}"))
        .collect();
    pages.sort();
    assert!(pages.len() >= PAGES, "{pages:?}");
    assert!(pages.iter().all(|page| page.ends_with(".md")), "{pages:?}");
    pages.push("docs/PROOFS.md".to_string());
    pages
}

/// Nothing is wrong on any page.
fn expect_none(faults: &[(String, Vec<Fault>)]) {
    let told: Vec<String> = faults
        .iter()
        .flat_map(|(page, faults)| faults.iter().map(move |fault| format!("{page}, {fault}")))
        .collect();
    assert!(
        told.is_empty(),
        "{} faults:\n{}",
        told.len(),
        told.join("\n")
    );
}

#[test]
fn pages_of_proofs_are_right() {
    let tree = Tree::read(&root());
    let faults: Vec<(String, Vec<Fault>)> = pages_of_proofs()
        .into_iter()
        .map(|page| {
            let text = read(&page);
            let mut faults = links(&tree, &page, &text);
            faults.extend(paths(&tree, &text, true));
            faults.extend(names(&tree, &text));
            faults.extend(entries(&tree, &text));
            faults.extend(width(&text, WIDTH));
            (page, faults)
        })
        .collect();
    expect_none(&faults);
}

#[test]
fn decisions_and_glossary_are_right() {
    let tree = Tree::read(&root());
    let faults: Vec<(String, Vec<Fault>)> = DESIGN
        .into_iter()
        .map(|page| {
            let text = read(page);
            let mut faults = links(&tree, page, &text);
            faults.extend(paths(&tree, &text, true));
            faults.extend(names(&tree, &text));
            faults.extend(width(&text, WIDTH));
            (page.to_string(), faults)
        })
        .collect();
    expect_none(&faults);
}

#[test]
fn links_and_paths_of_other_pages_are_right() {
    let tree = Tree::read(&root());
    let faults: Vec<(String, Vec<Fault>)> = OTHER
        .into_iter()
        .filter(|page| *page != OPTIONAL || tree.has(page))
        .map(|page| {
            let text = read(page);
            let mut faults = links(&tree, page, &text);
            faults.extend(paths(&tree, &text, false));
            (page.to_string(), faults)
        })
        .collect();
    expect_none(&faults);
}

#[test]
fn every_edit_is_on_a_page() {
    let tree = Tree::read(&root());
    let mut named: BTreeSet<(String, String)> = BTreeSet::new();
    for page in pages_of_proofs() {
        named.extend(edits_named(&tree, &read(&page)));
    }
    let forgotten: Vec<String> = tree
        .edits()
        .difference(&named)
        .map(|(folder, name)| format!("{folder}/{name}.edit"))
        .collect();
    assert!(
        forgotten.is_empty(),
        "on no page:\n{}",
        forgotten.join("\n")
    );
}

#[test]
fn every_page_is_in_the_index() {
    let index = read("docs/PROOFS.md");
    for page in pages_of_proofs() {
        let Some(link) = page
            .strip_prefix("docs/")
            .filter(|link| link.starts_with("proofs/"))
        else {
            continue;
        };
        assert!(
            index.contains(&format!("]({link})")),
            "{page} is not in docs/PROOFS.md"
        );
    }
}

#[test]
fn every_crate_is_in_the_index() {
    let index = read("docs/PROOFS.md");
    let rows: Vec<&str> = index.lines().filter(|line| line.starts_with('|')).collect();
    for entry in fs::read_dir(root().join("crates")).expect("the folder crates") {
        let name = entry
            .expect("an entry")
            .file_name()
            .into_string()
            .expect("UTF-8");
        let word = format!("`{name}`");
        assert!(
            rows.iter().any(|row| row.contains(&word)),
            "{name} has no page in docs/PROOFS.md"
        );
    }
}

#[test]
fn pages_have_their_entries() {
    let entries: usize = pages_of_proofs()
        .iter()
        .map(|page| {
            read(page)
                .lines()
                .filter(|line| line.starts_with("**"))
                .count()
        })
        .sum();
    assert!(entries >= ENTRIES, "{entries} entries");
}

/// The numbers of the items `- **R1. ` or `- **R1**` of a page, in their order.
fn numbers(page: &str, letter: char) -> Vec<usize> {
    let begin = format!("- **{letter}");
    page.lines()
        .filter_map(|line| line.strip_prefix(&begin))
        .filter_map(|rest| rest.split(['.', '*']).next()?.parse().ok())
        .collect()
}

#[test]
fn decisions_and_measurements_are_numbered() {
    let decisions = read("docs/DECISIONS.md");
    let performance = read("docs/PERFORMANCE.md");
    for (page, letter, least) in [
        (&decisions, 'R', 21),
        (&decisions, 'D', 80),
        (&performance, 'M', 8),
    ] {
        let found = numbers(page, letter);
        let expected: Vec<usize> = (1..=found.len()).collect();
        assert_eq!(found, expected, "{letter}");
        assert!(found.len() >= least, "{letter}: {}", found.len());
    }
    // A measurement is linked from its decision, and the decision from the measurement.
    for number in numbers(&performance, 'M') {
        let link = format!("[M{number}](PERFORMANCE.md#measured-for-decisions)");
        let items: Vec<&str> = decisions.split("\n- **D").collect();
        let Some(item) = items.iter().find(|item| item.contains(&link)) else {
            panic!("M{number} is not in docs/DECISIONS.md");
        };
        let decision = item.split('.').next().expect("its number");
        let back = format!("**M{number}**, for [D{decision}](DECISIONS.md#");
        assert!(performance.contains(&back), "{back}");
    }
}
