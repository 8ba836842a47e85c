//! Pages with inputs and outputs in them: their fenced blocks, and what these must hold.

use std::fs;
use std::path::{Path, PathBuf};

/// A fenced block of a page.
#[derive(Clone, Debug)]
pub struct Block {
    /// What stands behind the opening fence.
    pub info: String,
    /// The number of its opening line, from 1.
    pub line: usize,
    /// The lines between the fences, each with its line end.
    pub text: String,
}

/// The repository's root.
pub fn root() -> PathBuf {
    Path::new(env!("CARGO_MANIFEST_DIR")).join("../..")
}

/// The whole file.
pub fn read(path: &Path) -> String {
    fs::read_to_string(path).unwrap_or_else(|error| panic!("{}: {error}", path.display()))
}

/// The fenced blocks of a page, in order. Fences stand at the beginning of their line.
pub fn blocks(page: &str) -> Vec<Block> {
    let mut blocks: Vec<Block> = Vec::new();
    let mut open = false;
    for (number, line) in page.lines().enumerate() {
        match line.strip_prefix("```") {
            Some(info) if !open => {
                blocks.push(Block {
                    info: info.to_string(),
                    line: number + 1,
                    text: String::new(),
                });
                open = true;
            }
            Some(info) => {
                assert_eq!(info, "", "line {}: a fence inside a block", number + 1);
                open = false;
            }
            None if open => {
                let block = blocks.last_mut().expect("a block is open");
                block.text += line;
                block.text.push('\n');
            }
            None => assert!(!line.contains("```"), "line {}: a fence", number + 1),
        }
    }
    assert!(!open, "the last block is not closed");
    blocks
}

/// An input, and what `watch` prints for it by the page.
#[derive(Clone, Debug)]
pub struct Shown {
    /// The block `watch`.
    pub input: Block,
    /// The block `output` or `shortened` behind it, written out in full.
    pub output: Block,
    /// The block `rewrites` behind that, if there is one.
    pub rewrites: Option<Block>,
}

/// The inputs of a page. Each must have its output next, and nothing else may have one.
pub fn shown(blocks: &[Block]) -> Vec<Shown> {
    let mut shown: Vec<Shown> = Vec::new();
    let mut blocks = blocks.iter().peekable();
    while let Some(input) = blocks.next() {
        let line = input.line;
        assert_eq!(input.info, "watch", "line {line}: no input before it");
        let output = match blocks.next() {
            Some(block) if block.info == "output" => block.clone(),
            Some(block) if block.info == "shortened" => in_full(block),
            _ => panic!("line {line}: an input without its output"),
        };
        shown.push(Shown {
            input: input.clone(),
            output,
            rewrites: blocks.next_if(|block| block.info == "rewrites").cloned(),
        });
    }
    shown
}

/// A block `shortened` in full: in the last part of a line `a*3` is `a,a,a`.
fn in_full(block: &Block) -> Block {
    assert!(
        block.text.contains('*'),
        "line {}: nothing is shortened",
        block.line
    );
    let mut text = String::new();
    for line in block.text.lines() {
        let (rest, string) = line.rsplit_once(' ').expect("a line has parts");
        let names: Vec<&str> = string
            .split(',')
            .flat_map(|item| match item.split_once('*') {
                Some((name, count)) => vec![name; count.parse().expect("a number")],
                None => vec![item],
            })
            .collect();
        text += &format!("{rest} {}\n", names.join(","));
    }
    Block {
        text,
        ..block.clone()
    }
}

/// Runs `watch` on the input and compares all that it prints.
pub fn expect_printed(page: &Path, shown: &Shown) {
    let printed = program::watch(shown.input.text.as_bytes());
    assert_eq!(
        String::from_utf8_lossy(&printed),
        shown.output.text,
        "{}, line {}",
        page.display(),
        shown.input.line
    );
}
