/*!
What both ways to make and check a table share: the checks of an image, and parts of tables.

Of an image with a marked rule the trie has one node more, the mark, before the root. What differs
there is written with the root's number as a constant, so that other images do not pay for it.
*/

/// Refusal 7: the image breaks the layout or a range.
pub const BAD_IMAGE: u32 = 7;
/// Refusal 8: the table area is shorter than the words needed.
pub const SHORT_AREA: u32 = 8;
/// Refusal 9: the table is not that of the image.
pub const OTHER_TABLE: u32 = 9;

/// The words of a node of the trie.
pub const NODE: usize = 8;
/// The nodes of the largest trie: the mark, the root and 64 left sides of 8 symbols.
pub const NODES: usize = 514;
/// The nodes of the trie of a small image.
pub const FEW_NODES: usize = 64;

/// The node of the mark in the trie of an image with a marked rule. No node has it as a child.
pub const MARK: usize = 0;
/// The root, which is the empty string, in the trie of such an image.
pub const MARKED: usize = 1;
/// The root in the trie of another image.
pub const UNMARKED: usize = 0;

// Where the words of a node are.
pub const PARENT: usize = 0;
pub const SYMBOL: usize = 1;
pub const DEPTH: usize = 2;
pub const YOUNGEST_CHILD: usize = 3;
pub const OLDER_SIBLING: usize = 4;
pub const CHILDREN: usize = 5;
pub const MATCH: usize = 6;
pub const FAILURE: usize = 7;

/// What an image is.
pub enum Size {
    /// Not valid.
    Bad,
    /// It has no marked rule, and its bodies have less than 64 symbols: its trie has at most
    /// [`FEW_NODES`].
    Small,
    /// It has no marked rule. Its trie has at most [`NODES`].
    Large,
    /// It has a marked rule, and its bodies have less than 63 symbols: its trie has at most
    /// [`FEW_NODES`].
    SmallMarked,
    /// It has a marked rule. Its trie has at most [`NODES`].
    LargeMarked,
}

/// Checks an image.
#[inline]
pub fn size(image: &[u8]) -> Size {
    let Some(marks) = marks(image) else {
        return Size::Bad;
    };
    let bodies_len = image.len() - (4 + 4 * usize::from(image[1]));
    match marks {
        0 if bodies_len < FEW_NODES => Size::Small,
        0 => Size::Large,
        _ if bodies_len < FEW_NODES - 1 => Size::SmallMarked,
        _ => Size::LargeMarked,
    }
}

/// Whether the image keeps the layout and the ranges: then 1 if it has a marked rule, and 0 if it has
/// none.
#[inline]
fn marks(image: &[u8]) -> Option<u8> {
    let [s, r, v, e, rest @ ..] = image else {
        return None;
    };
    if !((1..=32).contains(s) && *r <= 64 && (2..=16).contains(v) && (1..=*s).contains(e)) {
        return None;
    }
    let contents_len = 4 * usize::from(*r);
    if rest.len() < contents_len {
        return None;
    }
    let (contents, bodies) = rest.split_at(contents_len);
    let mut bodies_len = 0;
    let mut marks = 0;
    for entry in contents.chunks_exact(4) {
        let (left, kind, right, mark) = (entry[0], entry[1], entry[2], entry[3]);
        if !(1..=8).contains(&left) || mark > 1 {
            return None;
        }
        marks |= mark;
        bodies_len += usize::from(left);
        match kind {
            0 if right <= 8 => bodies_len += usize::from(right),
            1 if right < *v => {}
            _ => return None,
        }
    }
    if bodies.len() != bodies_len {
        return None;
    }
    let most = bodies.iter().fold(0, |most, &symbol| symbol.max(most));
    (most < *s).then_some(marks)
}

/// A table that is to be written: its length, its match words and its rows.
pub struct Parts<'a> {
    pub words: usize,
    pub matches: &'a mut [u16],
    pub rows: &'a mut [u16],
}

/// Writes N and S of a table into an area and returns its other parts, or none if it is too short.
#[inline(always)]
pub fn begin(table: &mut [u16], n: usize, s: usize) -> Option<Parts<'_>> {
    let words = 2 + n + n * s;
    let (head, rest) = table.get_mut(..words)?.split_at_mut(2);
    head[0] = n as u16;
    head[1] = s as u16;
    let (matches, rows) = rest.split_at_mut(n);
    Some(Parts {
        words,
        matches,
        rows,
    })
}

/// The match words and the rows of a table that begins like that of a trie with `n` nodes over `s`
/// symbols. Its root is this node, and has so many children.
#[inline(always)]
pub fn parts(
    table: &[u16],
    n: usize,
    s: usize,
    root: usize,
    children: u16,
) -> Option<(&[u16], &[u16])> {
    let words = 2 + n + n * s;
    if table.len() < words || usize::from(table[0]) != n || usize::from(table[1]) != s {
        return None;
    }
    let (matches, rows) = table[2..words].split_at(n);
    let leaves = |&word: &u16| u16::from(word != root as u16);
    let leaving: u16 = rows[root * s..][..s].iter().map(leaves).sum();
    (matches[root] == 0 && leaving == children).then_some((matches, rows))
}

/// Rows `q` and `f`, which differ, the first of them to be written.
#[inline(always)]
pub fn two_rows(rows: &mut [u16], s: usize, q: usize, f: usize) -> (&mut [u16], &[u16]) {
    if f < q {
        let (before, after) = rows.split_at_mut(q * s);
        (&mut after[..s], &before[f * s..][..s])
    } else {
        let (before, after) = rows.split_at_mut(f * s);
        (&mut before[q * s..][..s], &after[..s])
    }
}

/// In how many words rows `q` and `f` differ, counted in 16 bits, so that the loop compares as many
/// words at once as it can.
#[inline(always)]
pub fn differing(rows: &[u16], s: usize, q: usize, f: usize) -> u16 {
    let words = rows[q * s..][..s].iter().zip(&rows[f * s..][..s]);
    words.map(|(a, b)| u16::from(a != b)).sum()
}
