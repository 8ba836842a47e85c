//! The checker itself, on small pages: what is right passes, and each wrong thing is found.

use documents::{edits_named, entries, links, names, paths, width, Fault, Kind, Tree};

/// A small repository.
fn tree() -> Tree {
    let mut tree = Tree::default();
    tree.add(
        "crates/layout/specs/Image.antt",
        "unfoldable pub imageOf : RuleSet → List ℕ\npub record Rule : Type 0 where\n  pub left : List ℕ\n",
    );
    tree.add("crates/layout/proofs/Image.antt", "pub valid-image : A\n");
    tree.add("crates/image/src/lib.rt", "pub fn is_valid(image: &[u8]) -> bool\n    ensures answer { a }\n{\n    let rules = 0;\n}\n");
    tree.add("crates/image/must-fail/symbols_33.edit", "");
    tree.add("crates/layout/must-fail/kinds_swapped.edit", "");
    tree.add("rust/watcher/src/raw.rs", "");
    tree.add(
        "rust/watcher/tests/images.rs",
        "#[test]\nfn every_header() {}\n",
    );
    tree.add("docs/DECISIONS.md", "# Decisions\n\n## Design\n");
    tree.add("README.md", "# Argivolent\n");
    tree
}

/// A page of proofs with nothing wrong.
const RIGHT: &str = "\
# Rule image

Definitions are in `layout/specs`; see [the design](../DECISIONS.md#design) and `Rule.left` in `layout/specs/Image.antt`.

**\"Contents first, then `nothing_known`
bodies.\"**

- definition: `imageOf`, `Rule` in `layout/specs/Image.antt`
- contract: the clause `answer` of `is_valid` in `image/src/lib.rt`
- laws: `valid-image` in `layout/proofs/Image.antt`
- tests: `every_header` in
  `watcher/tests/images.rs`; all of `watcher/tests/*.rs`, `*/tests/im*es.rs`
- edits: `symbols_33` in `image/must-fail`; `kinds_swapped` in `layout/must-fail`
- note: `is_valid` of `image` answers `image.len() < 4` too

```
`no_name` [nowhere](nowhere.md)
```
";

/// All that is wrong with a page of proofs.
fn faults(page: &str) -> Vec<Fault> {
    let tree = tree();
    let mut faults = links(&tree, "docs/proofs/image.md", page);
    faults.extend(paths(&tree, page, true));
    faults.extend(names(&tree, page));
    faults.extend(entries(&tree, page));
    faults.extend(width(page, 130));
    faults
}

/// The right page with a part replaced has this fault, and no other.
fn found(old: &str, new: &str, fault: &str) {
    assert!(RIGHT.contains(old), "{old}");
    let page = RIGHT.replacen(old, new, 1);
    let found: Vec<String> = faults(&page).into_iter().map(|fault| fault.what).collect();
    assert_eq!(found, [fault], "{new}");
}

#[test]
fn a_right_page_passes() {
    assert_eq!(faults(RIGHT), []);
}

#[test]
fn wrong_names() {
    found(
        "`imageOf`",
        "`imagesOf`",
        "`imagesOf` is not in `layout/specs/Image.antt`",
    );
    found(
        "`Rule.left`",
        "`Rule.right`",
        "`Rule.right` is not in `layout/specs/Image.antt`",
    );
    found("`answer`", "`area`", "`area` is not in `image/src/lib.rt`");
    found(
        "note: `is_valid`",
        "note: `is_right`",
        "`is_right` is defined nowhere",
    );
    found(
        "note: `is_valid`",
        "note: `rules`",
        "`rules` is defined nowhere",
    );
    found("of `image`", "of `images`", "`images` is defined nowhere");
    found(
        "`every_header`",
        "`no_header`",
        "`no_header` is not in `watcher/tests/images.rs`",
    );
}

#[test]
fn wrong_files() {
    found(
        "`valid-image` in `layout/proofs/Image.antt`",
        "`valid-image` in `layout/specs/Image.antt`",
        "`valid-image` is not in `layout/specs/Image.antt`",
    );
    found(
        "`layout/specs`;",
        "`layout/spec`;",
        "`layout/spec` is not there",
    );
    found(
        "`watcher/tests/*.rs`",
        "`watcher/tests/*.rt`",
        "`watcher/tests/*.rt` is not there",
    );
    found(
        "`*/tests/im*es.rs`",
        "`tests/im*es.rs`",
        "`tests/im*es.rs` is not there",
    );
    found(
        "`*/tests/im*es.rs`",
        "`*/im*es.rs`",
        "`*/im*es.rs` is not there",
    );
    found(
        " in `layout/proofs/Image.antt`",
        "",
        "`valid-image` has no file behind it",
    );
}

#[test]
fn wrong_edits() {
    found(
        "`symbols_33`",
        "`symbols_34`",
        "`symbols_34` is not in `image/must-fail`",
    );
    found(
        "`symbols_33` in `image/",
        "`symbols_33` in `layout/",
        "`symbols_33` is not in `layout/must-fail`",
    );
}

#[test]
fn broken_links() {
    found(
        "../DECISIONS.md#design",
        "../DECISION.md#design",
        "the link ../DECISION.md#design leads nowhere",
    );
    found(
        "../DECISIONS.md#design",
        "../DECISIONS.md#designs",
        "the link ../DECISIONS.md#designs leads to no heading",
    );
    found(
        "../DECISIONS.md#design",
        "../../../README.md",
        "the link ../../../README.md leads nowhere",
    );
}

#[test]
fn wrong_entries() {
    found("- laws:", "- law:", "an item of an entry without a label");
    found(
        "- laws: `valid-image` in `layout/proofs/Image.antt`",
        "- computed: `imageOf` in `layout/specs/Image.antt`",
        "`layout/specs/Image.antt` behind `computed`",
    );
    found(
        "- note: `is_valid` of `image`",
        "- edits: the check",
        "`edits` is out of order",
    );
    found(
        "- note: ",
        "**An entry.**\n\n- ",
        "an item of an entry without a label",
    );
    found(
        "```\n`no_name`",
        "**An entry.**\n\n```\n`no_name`",
        "an entry without items",
    );
    found(
        "bodies.\"**",
        "bodies.**",
        "a backtick or a quote is left open",
    );
}

#[test]
fn long_lines() {
    found(
        "Definitions ",
        &"Definitions ".repeat(12),
        "a line of 253 characters",
    );
    assert_eq!(width("| a row may be long |", 10), []);
}

#[test]
fn names_on_other_pages_may_be_without_their_beginning() {
    let page = "See `src/raw.rs`, `raw.rs`, `target/bin/watch` and `tests/*.rs`.";
    assert_eq!(paths(&tree(), page, false), []);
    assert_eq!(paths(&tree(), page, true).len(), 4);
    assert_eq!(paths(&tree(), "See `src/row.rs`.", false).len(), 1);
}

#[test]
fn edits_of_a_page() {
    let tree = tree();
    assert_eq!(edits_named(&tree, RIGHT), tree.edits());
    assert_eq!(tree.edits().len(), 2);
    let fewer = RIGHT.replace("; `kinds_swapped` in `layout/must-fail`", "");
    assert_eq!(edits_named(&tree, &fewer).len(), 1);
}

#[test]
fn kinds_of_words() {
    for path in ["layout/specs/Image.antt", "lib.rt", ".ci/run", "crates/"] {
        assert_eq!(Kind::of(path), Kind::Path, "{path}");
    }
    for name in [
        "imageOf",
        "valid-image",
        "Head::offer",
        "Agrees.rewriter",
        "image::wide::byte",
        "log′",
    ] {
        assert_eq!(Kind::of(name), Kind::Name, "{name}");
    }
    for code in [
        "->",
        "&input[at..]",
        "22",
        ".before",
        "a b",
        "b'%'",
        "#epsilon",
        ".",
        "r",
        "x ∷ xs",
    ] {
        assert_eq!(Kind::of(code), Kind::Code, "{code}");
    }
}
