//! Tables in areas that the caller lends.

use crate::{raw, Refusal};

/// The length in bytes of the longest rule image.
pub const MAX_IMAGE_BYTES: usize = 1_284;

/// The length in words of the longest table: 514 states and 32 symbols.
pub const MAX_TABLE_WORDS: usize = 16_964;

/// Writes the table of a rule image into `table` and returns the number of words written.
///
/// Words beyond those written keep their values. An area of [`MAX_TABLE_WORDS`] words is long enough
/// for every image.
///
/// # Errors
///
/// In this order: [`Refusal::BAD_IMAGE`], [`Refusal::SHORT_AREA`]. Then `table` is as it was.
///
/// # Example
///
/// ```
/// use watcher::compile;
///
/// // Two symbols and no rules: one state, which nothing leaves.
/// let mut table = [9; 6];
/// assert_eq!(compile(&[2, 0, 2, 1], &mut table), Ok(5));
/// assert_eq!(table, [1, 2, 0, 0, 0, 9]);
///
/// // One symbol, and a marked rule that turns it into verdict 0: state 0 is the mark alone, state 1 the
/// // empty string, state 2 the symbol behind the mark.
/// let mut table = [9; 8];
/// assert_eq!(compile(&[1, 1, 2, 1, 1, 1, 0, 1, 0], &mut table), Ok(8));
/// assert_eq!(table, [3, 1, 0, 0, 1, 2, 1, 1]);
/// ```
pub fn compile(image: &[u8], table: &mut [u16]) -> Result<usize, Refusal> {
    let mut out = [0];
    Refusal::from_result(raw::compile(image, table, &mut out))?;
    // The number of words is at most the length of `table`, which is a `usize`.
    Ok(out[0] as usize)
}

/// Says whether `table` begins with the words that [`compile`] gives for this rule image.
///
/// Words beyond those are not read.
///
/// # Errors
///
/// In this order: [`Refusal::BAD_IMAGE`], [`Refusal::OTHER_TABLE`]. A `table` that is too short is
/// [`Refusal::OTHER_TABLE`].
///
/// # Example
///
/// ```
/// use watcher::{check_table, Refusal};
///
/// let image = [2, 0, 2, 1];
/// assert_eq!(check_table(&image, &[1, 2, 0, 0, 0]), Ok(()));
/// assert_eq!(check_table(&image, &[1, 2, 0, 0, 0, 5, 6]), Ok(()));
/// assert_eq!(check_table(&image, &[1, 2, 0, 0]), Err(Refusal::OTHER_TABLE));
/// ```
pub fn check_table(image: &[u8], table: &[u16]) -> Result<(), Refusal> {
    Refusal::from_result(raw::check_table(image, table))
}
