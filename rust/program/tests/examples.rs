//! The folders of `examples/`: what `watch` prints for each input, and what each page says.

mod pages;

use std::fs;
use std::path::PathBuf;

use pages::{blocks, expect_printed, read, root, shown};

/// The rules that document 01 and 001 have, in their order, with 001's digits as names and `^` as a token of
/// its own; and those of document 01 with the rule of document 02, No. 1.
const PUBLISHED: [(&str, &[&str]); 10] = [
    (
        "swap",
        &[
            "lock take -> held .",
            "held free -> #epsilon .",
            "take -> #fail .",
        ],
    ),
    (
        "swap-start",
        &[
            "lock take -> held .",
            "held free -> #epsilon .",
            "^ take -> #fail .",
        ],
    ),
    (
        "safe-file-writer",
        &["open write -> open .", "close write -> #fail ."],
    ),
    (
        "has-next",
        &[
            "hasnexttrue next -> #epsilon .",
            "hasnexttrue hasnexttrue -> hasnexttrue .",
            "^ next -> #fail .",
        ],
    ),
    (
        "safe-lock",
        &[
            "begin end -> #epsilon .",
            "acquire release -> #epsilon .",
            "begin release -> #tooManyReleases .",
            "acquire end -> #tooFewReleases .",
        ],
    ),
    (
        "safe-sync-col",
        &[
            "sync asyncCreateIter -> #fail .",
            "sync syncCreateIter accessIter -> #fail .",
        ],
    ),
    (
        "safe-sync-map",
        &[
            "sync createSet asyncCreateIter -> #fail .",
            "sync createSet syncCreateIter accessIter -> #fail .",
        ],
    ),
    (
        "unsafe-iter",
        &[
            "update use -> #fail .",
            "use use -> use .",
            "update update -> update .",
            "createIter -> #epsilon .",
        ],
    ),
    (
        "unsafe-map-iter",
        &[
            "update use -> #fail .",
            "use use -> use .",
            "update update -> update .",
            "createIter -> #epsilon .",
            "createCollection -> #epsilon .",
        ],
    ),
    (
        "counting",
        &[
            "one zero -> zero one .",
            "two zero -> zero two .",
            "two one -> one two .",
            "zero one -> three .",
            "one three -> three one .",
            "three zero -> zero three .",
            "three two -> #epsilon .",
            "two three -> #epsilon .",
        ],
    ),
];

/// The folders, by name.
fn folders() -> Vec<(String, PathBuf)> {
    let mut folders: Vec<(String, PathBuf)> = fs::read_dir(root().join("examples"))
        .expect("examples/")
        .map(|entry| entry.expect("an entry").path())
        .filter(|path| path.is_dir())
        .map(|path| {
            let name = path.file_name().expect("a name").to_string_lossy();
            (name.into_owned(), path.clone())
        })
        .collect();
    folders.sort();
    folders
}

/// The lines of an input before its `%`, which stands on a line of its own.
fn rule_lines(input: &str) -> Vec<&str> {
    let lines: Vec<&str> = input.lines().collect();
    let end = lines.iter().position(|&line| line == "%");
    lines[..end.expect("a line `%`")].to_vec()
}

#[test]
fn each_folder_has_its_three_files_and_its_row() {
    let table = read(&root().join("examples/README.md"));
    let rows: Vec<&str> = table
        .lines()
        .filter(|line| line.starts_with("| ["))
        .collect();
    let folders = folders();
    assert_eq!(rows.len(), folders.len(), "rows of the table");
    for (name, path) in &folders {
        let mut files: Vec<String> = fs::read_dir(path)
            .expect("a folder")
            .map(|entry| entry.expect("an entry").file_name())
            .map(|file| file.to_string_lossy().into_owned())
            .collect();
        files.sort();
        assert_eq!(files, ["README.md", "input", "output"], "{name}");
        let row = format!("| [`{name}`]({name}) |");
        assert!(rows.iter().any(|line| line.starts_with(&row)), "{row}");
    }
}

#[test]
fn watch_prints_each_output() {
    let folders = folders();
    assert!(folders.len() >= 6, "{} folders", folders.len());
    for (name, path) in folders {
        let input = read(&path.join("input"));
        let printed = program::watch(input.as_bytes());
        let output = read(&path.join("output"));
        assert_eq!(String::from_utf8_lossy(&printed), output, "{name}");
        assert!(output.lines().count() >= 3, "{name}: a day of three events");
    }
}

#[test]
fn the_rules_are_the_published_ones() {
    for (name, rules) in PUBLISHED {
        let input = read(&root().join("examples").join(name).join("input"));
        assert_eq!(rule_lines(&input)[1..], *rules, "{name}");
    }
    let rules_of = |name: &str| read(&root().join("examples").join(name).join("input"));
    let (published, here) = (rules_of("counting"), rules_of("counting-here"));
    let mut fewer = rule_lines(&published);
    fewer.retain(|&rule| rule != "three zero -> zero three .");
    assert_eq!(rule_lines(&here), fewer, "counting-here");
}

/// A page has a table with each line of the rule text, blocks with lines of the output, and other inputs
/// with all that is printed for them.
#[test]
fn each_page_shows_what_is_there() {
    let mut inputs = 0;
    for (name, path) in folders() {
        let page_path = path.join("README.md");
        let page = read(&page_path);
        let input = read(&path.join("input"));
        let output = read(&path.join("output"));

        let told: Vec<&str> = page
            .lines()
            .filter_map(|line| line.strip_prefix("| `")?.split_once("` |"))
            .map(|(rule, _)| rule)
            .collect();
        assert_eq!(told, rule_lines(&input), "{name}");

        let (excerpts, others): (Vec<_>, Vec<_>) = blocks(&page)
            .into_iter()
            .partition(|block| block.info == "excerpt");
        assert!(!excerpts.is_empty(), "{name}: no line of the output");
        for excerpt in excerpts {
            let found = output
                .match_indices(&excerpt.text)
                .any(|(place, _)| place == 0 || output[..place].ends_with('\n'));
            assert!(
                found && !excerpt.text.is_empty(),
                "{name}, line {}",
                excerpt.line
            );
        }
        for shown in shown(&others) {
            assert!(
                shown.rewrites.is_none(),
                "{name}: rewrites are not compared here"
            );
            expect_printed(&page_path, &shown);
            inputs += 1;
        }
    }
    assert!(inputs >= 10, "{inputs} other inputs");
}

/// n of each digit: the rules of `counting-here` leave nothing, those of `counting` do for one of each alone.
#[test]
fn counting_digits() {
    for count in 1..=40 {
        let last_of = |name: &str| {
            let input = read(&root().join("examples").join(name).join("input"));
            let mut text = rule_lines(&input).join("\n") + "\n%";
            for digit in ["two", "one", "zero"] {
                text += &format!(" {digit}").repeat(count);
            }
            let printed = String::from_utf8(program::watch(text.as_bytes())).expect("ASCII");
            assert_eq!(
                printed.lines().count(),
                3 * count,
                "{name}, {count} of each"
            );
            let last = printed.lines().last().expect("a line").to_string();
            assert!(
                last.starts_with("zero quiet "),
                "{name}, {count} of each: {last}"
            );
            last.split(' ').next_back().expect("a string").to_string()
        };
        assert_eq!(last_of("counting-here"), "-", "{count} of each");
        let left = match count {
            1 => "-".to_string(),
            _ => [
                "zero,".repeat(count - 1),
                "three".to_string(),
                ",one".repeat(count - 1),
                ",two".repeat(count),
            ]
            .concat(),
        };
        assert_eq!(last_of("counting"), left, "{count} of each");
    }
}
