/*!
Tables, plainly: the library's algorithm in safe Rust.

A trie of the left sides is built node by node, in the order of the states' numbers, in one array of
words. Compile turns it into rows, then goes through all states once for each depth up to the longest
left side's and fills the rows of that depth from those of their failure states. The check builds the
same trie and then looks at each word of the table once or twice.
*/

use crate::shared::tables::*;

/// The words of the largest trie.
const TRIE: usize = NODES * NODE;
/// The words of the trie of a small image.
const SMALL_TRIE: usize = FEW_NODES * NODE;

/// Builds the trie of a valid image's left sides, in a trie of zeros, and returns the number of
/// nodes.
fn build<const W: usize, const ROOT: usize>(image: &[u8], trie: &mut [u16; W]) -> usize {
    let rules = usize::from(image[1]);
    let (contents, mut bodies) = image[4..].split_at(4 * rules);
    let mut n = ROOT + 1;
    if ROOT == MARKED {
        trie[MARK * NODE + DEPTH] = 1;
        trie[MARK * NODE + FAILURE] = ROOT as u16;
    }
    for (rule, entry) in contents.chunks_exact(4).enumerate() {
        let (left, rest) = bodies.split_at(entry[0].into());
        let mut q = if entry[3] == 1 { MARK } else { ROOT };
        for &a in left {
            let mut child = usize::from(trie[q * NODE + YOUNGEST_CHILD]);
            while child != 0 && trie[child * NODE + SYMBOL] != a.into() {
                child = trie[child * NODE + OLDER_SIBLING].into();
            }
            if child == 0 {
                child = n;
                trie[n * NODE + PARENT] = q as u16;
                trie[n * NODE + SYMBOL] = a.into();
                trie[n * NODE + DEPTH] = trie[q * NODE + DEPTH] + 1;
                trie[n * NODE + OLDER_SIBLING] = trie[q * NODE + YOUNGEST_CHILD];
                trie[q * NODE + YOUNGEST_CHILD] = n as u16;
                trie[q * NODE + CHILDREN] += 1;
                n += 1;
            }
            q = child;
        }
        if trie[q * NODE + MATCH] == 0 {
            trie[q * NODE + MATCH] = rule as u16 + 1;
        }
        bodies = match entry[1] {
            0 => &rest[entry[2].into()..],
            _ => rest,
        };
    }
    n
}

/// The failure state of node `q`, by the rows and its parent's failure state.
fn failure<const W: usize, const ROOT: usize>(
    trie: &[u16; W],
    rows: &[u16],
    s: usize,
    q: usize,
) -> u16 {
    match usize::from(trie[q * NODE + PARENT]) {
        parent if parent == ROOT => ROOT as u16,
        parent => {
            let f = usize::from(trie[parent * NODE + FAILURE]);
            rows[f * s + usize::from(trie[q * NODE + SYMBOL])]
        }
    }
}

/// Writes the table of an image: returns 0 or a refusal. Afterwards `out` holds the number of words
/// written.
// Not inlined, as the library is not: the benchmark's loop must not see what is called.
#[inline(never)]
pub fn compile(image: &[u8], table: &mut [u16], out: &mut [u64; 1]) -> u32 {
    *out = [0];
    match size(image) {
        Size::Bad => BAD_IMAGE,
        Size::Small => compile_with::<SMALL_TRIE, UNMARKED>(image, table, out),
        Size::Large => compile_with::<TRIE, UNMARKED>(image, table, out),
        Size::SmallMarked => compile_with::<SMALL_TRIE, MARKED>(image, table, out),
        Size::LargeMarked => compile_with::<TRIE, MARKED>(image, table, out),
    }
}

/// The same of a valid image, with so many words for the trie, and with this root.
#[inline(never)]
fn compile_with<const W: usize, const ROOT: usize>(
    image: &[u8],
    table: &mut [u16],
    out: &mut [u64; 1],
) -> u32 {
    let mut trie = [0; W];
    let n = build::<W, ROOT>(image, &mut trie);
    let s = usize::from(image[0]);
    let Some(parts) = begin(table, n, s) else {
        return SHORT_AREA;
    };
    let rows = parts.rows;
    rows.fill(0);
    for c in ROOT + 1..n {
        let parent = usize::from(trie[c * NODE + PARENT]);
        rows[parent * s + usize::from(trie[c * NODE + SYMBOL])] = c as u16;
    }
    if ROOT == MARKED {
        // Until here a 0 in a row is no child. It stays so in the other rows: the mark is no child.
        let (mark, root) = rows[..2 * s].split_at_mut(s);
        merge(root, &[ROOT as u16; 32]);
        merge(mark, root);
    }
    for d in 1..=longest(image) + ROOT {
        for q in ROOT + 1..n {
            if usize::from(trie[q * NODE + DEPTH]) != d {
                continue;
            }
            let f = failure::<W, ROOT>(&trie, rows, s, q);
            trie[q * NODE + FAILURE] = f;
            let f = usize::from(f);
            if trie[q * NODE + MATCH] == 0 {
                trie[q * NODE + MATCH] = trie[f * NODE + MATCH];
            }
            let (row, from) = two_rows(rows, s, q, f);
            merge(row, from);
        }
    }
    for (word, node) in parts.matches.iter_mut().zip(trie.chunks_exact(NODE)) {
        *word = node[MATCH];
    }
    *out = [parts.words as u64];
    0
}

/// The number of symbols of a valid image's longest left side.
fn longest(image: &[u8]) -> usize {
    let contents = &image[4..4 + 4 * usize::from(image[1])];
    let lengths = contents.chunks_exact(4).map(|entry| entry[0]);
    lengths.max().unwrap_or(0).into()
}

/// Each 0 of a row becomes the other row's word. A function of its own, which is not inlined, and a
/// store at each word: only so does the loop become vector code.
#[inline(never)]
fn merge(row: &mut [u16], from: &[u16]) {
    for (word, &other) in row.iter_mut().zip(from) {
        *word = if *word == 0 { other } else { *word };
    }
}

/// Whether the table begins with the words that compile gives for the image: returns 0 or a
/// refusal.
#[inline(never)]
pub fn check_table(image: &[u8], table: &[u16]) -> u32 {
    match size(image) {
        Size::Bad => BAD_IMAGE,
        Size::Small => check_with::<SMALL_TRIE, UNMARKED>(image, table),
        Size::Large => check_with::<TRIE, UNMARKED>(image, table),
        Size::SmallMarked => check_with::<SMALL_TRIE, MARKED>(image, table),
        Size::LargeMarked => check_with::<TRIE, MARKED>(image, table),
    }
}

/// The same of a valid image, with so many words for the trie, and with this root.
fn check_with<const W: usize, const ROOT: usize>(image: &[u8], table: &[u16]) -> u32 {
    let mut trie = [0; W];
    let n = build::<W, ROOT>(image, &mut trie);
    let s = usize::from(image[0]);
    if is_table_of::<W, ROOT>(&mut trie, n, s, table) {
        0
    } else {
        OTHER_TABLE
    }
}

/// Whether the table begins with that of a trie of `n` nodes over `s` symbols.
fn is_table_of<const W: usize, const ROOT: usize>(
    trie: &mut [u16; W],
    n: usize,
    s: usize,
    table: &[u16],
) -> bool {
    let Some((matches, rows)) = parts(table, n, s, ROOT, trie[ROOT * NODE + CHILDREN]) else {
        return false;
    };
    if ROOT == MARKED
        && (matches[MARK] != 0 || differing(rows, s, MARK, ROOT) != trie[MARK * NODE + CHILDREN])
    {
        return false;
    }
    for q in ROOT + 1..n {
        let parent = usize::from(trie[q * NODE + PARENT]);
        let symbol = usize::from(trie[q * NODE + SYMBOL]);
        if usize::from(rows[parent * s + symbol]) != q {
            return false;
        }
        let f = failure::<W, ROOT>(trie, rows, s, q);
        trie[q * NODE + FAILURE] = f;
        let f = usize::from(f);
        if f >= n {
            return false;
        }
        let match_word = match trie[q * NODE + MATCH] {
            0 => matches[f],
            own => own,
        };
        if matches[q] != match_word || differing(rows, s, q, f) != trie[q * NODE + CHILDREN] {
            return false;
        }
    }
    true
}
