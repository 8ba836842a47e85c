//! A rule image together with its table and its names.

use crate::{
    compile, read_rules, Names, Refusal, TextRefusal, MAX_IMAGE_BYTES, MAX_TABLE_WORDS, NAMES_BYTES,
};

/// A rule set: its image, the table of that image, and the names of its symbols and verdicts if it was
/// read from a text.
///
/// # Example
///
/// ```
/// use watcher::{Refusal, Rules};
///
/// // One event and no rules.
/// let rules = Rules::new(&[1, 0, 2, 1])?;
/// assert_eq!(rules.image(), [1, 0, 2, 1]);
/// assert_eq!(rules.table(), [1, 1, 0, 0]);
///
/// assert_eq!(Rules::new(&[0, 0, 2, 1]), Err(Refusal::BAD_IMAGE));
/// # Ok::<(), Refusal>(())
/// ```
///
/// The same from a text:
///
/// ```
/// use watcher::{Rules, TextRefusal};
///
/// let rules = Rules::read("events ring .")?;
/// assert_eq!(rules.image(), [1, 0, 2, 1]);
/// assert_eq!(rules.names().symbol("ring"), Some(0));
/// # Ok::<(), TextRefusal>(())
/// ```
#[derive(Clone, Debug, PartialEq, Eq)]
pub struct Rules {
    image: Vec<u8>,
    table: Vec<u16>,
    names: Names,
}

impl Rules {
    /// Compiles a rule image. Its symbols and verdicts have no names.
    ///
    /// # Errors
    ///
    /// [`Refusal::BAD_IMAGE`].
    pub fn new(image: &[u8]) -> Result<Rules, Refusal> {
        let mut table = vec![0; MAX_TABLE_WORDS];
        let words = compile(image, &mut table)?;
        table.truncate(words);
        table.shrink_to_fit();
        Ok(Rules {
            image: image.to_vec(),
            table,
            names: Names::default(),
        })
    }

    /// Reads a rule text, and compiles its image.
    ///
    /// # Errors
    ///
    /// Those of [`read_rules`] but [`Refusal::SHORT_TEXT_AREA`].
    pub fn read(text: impl AsRef<[u8]>) -> Result<Rules, TextRefusal> {
        let mut image = [0; MAX_IMAGE_BYTES];
        let mut slots = [0; NAMES_BYTES];
        let length = read_rules(text.as_ref(), &mut image, &mut slots)?;
        let rules = Rules::new(&image[..length]).expect("the image of a text is good");
        Ok(Rules {
            names: Names::new(slots),
            ..rules
        })
    }

    /// The rule image.
    pub fn image(&self) -> &[u8] {
        &self.image
    }

    /// The table of the image.
    pub fn table(&self) -> &[u16] {
        &self.table
    }

    /// The names of symbols and verdicts.
    pub fn names(&self) -> &Names {
        &self.names
    }
}
