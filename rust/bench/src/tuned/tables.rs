/*!
Tables, tuned: as fast as we could make safe Rust.

The trie is the library's, but its nodes are arrays of eight words, so that one bounds check is
enough for a node, and the root's children are found by their symbol at once. Compile is another
algorithm: it sorts the nodes by depth, and each row is a copy of its failure state's row with the
node's own children written over it, so that no row is cleared first. The check is the library's.
*/

use crate::shared::tables::*;

/// The most symbols that there are.
const MAX_SYMBOLS: usize = 32;

/// More than the largest depth, which is that of eight symbols behind the mark. It is a power of two,
/// so that a remainder needs no division.
const DEPTHS: usize = 16;

/// A node of the trie.
type Node = [u16; NODE];

/// Builds the trie of a valid image's left sides, in a trie of zeros, and returns the number of
/// nodes. The root and the mark may have many children, so these are found by their symbol; those of
/// other nodes are looked for from the youngest to the oldest.
fn build<const N: usize, const ROOT: usize>(image: &[u8], trie: &mut [Node; N]) -> usize {
    let rules = usize::from(image[1]);
    let (contents, mut bodies) = image[4..].split_at(4 * rules);
    let (contents, _) = contents.as_chunks();
    let mut of_root = [0; MAX_SYMBOLS];
    let mut of_mark = [0; MAX_SYMBOLS];
    let mut n = ROOT + 1;
    if ROOT == MARKED {
        trie[MARK][PARENT] = ROOT as u16;
        trie[MARK][DEPTH] = 1;
        trie[MARK][FAILURE] = ROOT as u16;
    }
    for (rule, &[left, kind, right, mark]) in contents.iter().enumerate() {
        let (left, rest) = bodies.split_at(left.into());
        let (start, children) = if ROOT == MARKED && mark == 1 {
            (MARK, &mut of_mark)
        } else {
            (ROOT, &mut of_root)
        };
        let first = &mut children[usize::from(left[0]) % MAX_SYMBOLS];
        let mut q = usize::from(*first);
        if q == 0 {
            *first = n as u16;
            q = add(trie, n, start, left[0]);
            n += 1;
        }
        for &a in &left[1..] {
            let mut child = usize::from(trie[q][YOUNGEST_CHILD]);
            while child != 0 && trie[child][SYMBOL] != a.into() {
                child = trie[child][OLDER_SIBLING].into();
            }
            if child == 0 {
                child = add(trie, n, q, a);
                n += 1;
            }
            q = child;
        }
        if trie[q][MATCH] == 0 {
            trie[q][MATCH] = rule as u16 + 1;
        }
        bodies = match kind {
            0 => &rest[right.into()..],
            _ => rest,
        };
    }
    n
}

/// Makes node `n` a child of `q`, and returns it.
#[inline(always)]
fn add<const N: usize>(trie: &mut [Node; N], n: usize, q: usize, a: u8) -> usize {
    let parent = &mut trie[q];
    let depth = parent[DEPTH] + 1;
    let older = parent[YOUNGEST_CHILD];
    parent[YOUNGEST_CHILD] = n as u16;
    parent[CHILDREN] += 1;
    let node = &mut trie[n];
    node[PARENT] = q as u16;
    node[SYMBOL] = a.into();
    node[DEPTH] = depth;
    node[OLDER_SIBLING] = older;
    n
}

/// The failure state of node `q`, by the rows and its parent's failure state.
#[inline(always)]
fn failure<const ROOT: usize>(trie: &[Node], rows: &[u16], s: usize, q: usize) -> usize {
    let node = &trie[q];
    match usize::from(node[PARENT]) {
        parent if parent == ROOT => ROOT,
        parent => {
            let f = usize::from(trie[parent][FAILURE]);
            usize::from(rows[f * s + usize::from(node[SYMBOL])])
        }
    }
}

/// Writes the table of an image: returns 0 or a refusal. Afterwards `out` holds the number of words
/// written.
// Not inlined, as the library is not: the benchmark's loop must not see what is called.
#[inline(never)]
pub fn compile(image: &[u8], table: &mut [u16], out: &mut [u64; 1]) -> u32 {
    *out = [0];
    match size(image) {
        Size::Bad => BAD_IMAGE,
        Size::Small => compile_with::<FEW_NODES, UNMARKED>(image, table, out),
        Size::Large => compile_with::<NODES, UNMARKED>(image, table, out),
        Size::SmallMarked => compile_with::<FEW_NODES, MARKED>(image, table, out),
        Size::LargeMarked => compile_with::<NODES, MARKED>(image, table, out),
    }
}

/// The same of a valid image, with room for so many nodes, and with this root. Not inlined, so that
/// few nodes need a small frame only.
#[inline(never)]
fn compile_with<const N: usize, const ROOT: usize>(
    image: &[u8],
    table: &mut [u16],
    out: &mut [u64; 1],
) -> u32 {
    let mut trie = [[0; NODE]; N];
    let n = build::<N, ROOT>(image, &mut trie);
    let s = usize::from(image[0]);
    let Some(parts) = begin(table, n, s) else {
        return SHORT_AREA;
    };
    let rows = parts.rows;
    let trie = &mut trie[..n];
    let mut by_depth = [0; N];
    sort_by_depth(trie, &mut by_depth);
    rows[ROOT * s..][..s].fill(ROOT as u16);
    write_children(trie, rows, s, ROOT);
    // The first is the root, and in an image with a marked rule the second is the mark.
    for &q in &by_depth[1..n] {
        let q = usize::from(q);
        let f = failure::<ROOT>(trie, rows, s, q);
        let match_word = trie[f][MATCH];
        let node = &mut trie[q];
        node[FAILURE] = f as u16;
        if node[MATCH] == 0 {
            node[MATCH] = match_word;
        }
        let (row, from) = two_rows(rows, s, q, f);
        copy(row, from);
        write_children(trie, rows, s, q);
    }
    for (word, node) in parts.matches.iter_mut().zip(trie) {
        *word = node[MATCH];
    }
    *out = [parts.words as u64];
    0
}

/// The nodes in the order of their depths.
fn sort_by_depth(trie: &[Node], by_depth: &mut [u16]) {
    // Where the nodes of each depth begin; those of depth `d` are counted at `d + 1`.
    let mut begin = [0; DEPTHS + 1];
    for node in trie {
        begin[usize::from(node[DEPTH]) % DEPTHS + 1] += 1;
    }
    for depth in 1..begin.len() {
        begin[depth] += begin[depth - 1];
    }
    for (q, node) in trie.iter().enumerate() {
        let place = &mut begin[usize::from(node[DEPTH]) % DEPTHS];
        by_depth[*place] = q as u16;
        *place += 1;
    }
}

/// Writes the children of node `q` into its row.
#[inline(always)]
fn write_children(trie: &[Node], rows: &mut [u16], s: usize, q: usize) {
    let row = &mut rows[q * s..][..s];
    let mut child = usize::from(trie[q][YOUNGEST_CHILD]);
    while child != 0 {
        let node = &trie[child];
        row[usize::from(node[SYMBOL])] = child as u16;
        child = node[OLDER_SIBLING].into();
    }
}

/// Copies a row. By eights: a call for so few words takes longer.
#[inline(always)]
fn copy(row: &mut [u16], from: &[u16]) {
    let (eights, rest) = row.as_chunks_mut::<8>();
    let (from_eights, from_rest) = from.as_chunks::<8>();
    for (words, others) in eights.iter_mut().zip(from_eights) {
        *words = *others;
    }
    for (word, other) in rest.iter_mut().zip(from_rest) {
        *word = *other;
    }
}

/// Whether the table begins with the words that compile gives for the image: returns 0 or a
/// refusal.
#[inline(never)]
pub fn check_table(image: &[u8], table: &[u16]) -> u32 {
    match size(image) {
        Size::Bad => BAD_IMAGE,
        Size::Small => check_with::<FEW_NODES, UNMARKED>(image, table),
        Size::Large => check_with::<NODES, UNMARKED>(image, table),
        Size::SmallMarked => check_with::<FEW_NODES, MARKED>(image, table),
        Size::LargeMarked => check_with::<NODES, MARKED>(image, table),
    }
}

/// The same of a valid image, with room for so many nodes, and with this root.
fn check_with<const N: usize, const ROOT: usize>(image: &[u8], table: &[u16]) -> u32 {
    let mut trie = [[0; NODE]; N];
    let n = build::<N, ROOT>(image, &mut trie);
    let s = usize::from(image[0]);
    if is_table_of::<ROOT>(&mut trie[..n], s, table) {
        0
    } else {
        OTHER_TABLE
    }
}

/// Whether the table begins with that of a trie over `s` symbols.
fn is_table_of<const ROOT: usize>(trie: &mut [Node], s: usize, table: &[u16]) -> bool {
    let n = trie.len();
    let Some((matches, rows)) = parts(table, n, s, ROOT, trie[ROOT][CHILDREN]) else {
        return false;
    };
    if ROOT == MARKED
        && (matches[MARK] != 0 || differing(rows, s, MARK, ROOT) != trie[MARK][CHILDREN])
    {
        return false;
    }
    for q in ROOT + 1..n {
        let node = &trie[q];
        let parent = usize::from(node[PARENT]);
        if usize::from(rows[parent * s + usize::from(node[SYMBOL])]) != q {
            return false;
        }
        let f = failure::<ROOT>(trie, rows, s, q);
        if f >= n {
            return false;
        }
        let node = &mut trie[q];
        node[FAILURE] = f as u16;
        let match_word = match node[MATCH] {
            0 => matches[f],
            own => own,
        };
        if matches[q] != match_word || differing(rows, s, q, f) != node[CHILDREN] {
            return false;
        }
    }
    true
}
