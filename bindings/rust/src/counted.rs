//! Results that come with a count of what was left out of them.

use std::fmt;

/// Ids of a text, with how many characters were dropped because some byte of them has no id.
///
/// ```
/// # use varitmol::{Model, Tables};
/// let model = Model::new(Tables::from_pieces(&["a", "b"]))?;
/// assert_eq!(model.encode("ab")?.whole()?, [0, 1]);
///
/// let encoded = model.encode("axb")?;
/// assert_eq!(encoded.drops(), 1);
/// assert_eq!(encoded.clone().with_drops(), (vec![0, 1], 1));
/// assert_eq!(encoded.whole().unwrap_err().to_string(), "1 character of the text has no id");
/// # Ok::<(), Box<dyn std::error::Error>>(())
/// ```
#[must_use = "dropped characters are told here and nowhere else"]
#[derive(Debug, Clone, PartialEq, Eq)]
pub struct Encoded<T> {
    ids: T,
    drops: usize,
}

impl<T> Encoded<T> {
    pub(crate) fn new(ids: T, drops: usize) -> Self {
        Encoded { ids, drops }
    }

    /// How many characters were dropped.
    pub fn drops(&self) -> usize {
        self.drops
    }

    /// The ids and how many characters were dropped.
    pub fn with_drops(self) -> (T, usize) {
        (self.ids, self.drops)
    }

    /// The ids, if no character was dropped.
    ///
    /// # Errors
    ///
    /// Gives itself back if any was.
    pub fn whole(self) -> Result<T, Self> {
        if self.drops == 0 { Ok(self.ids) } else { Err(self) }
    }
}

impl<T> fmt::Display for Encoded<T> {
    fn fmt(&self, f: &mut fmt::Formatter<'_>) -> fmt::Result {
        match self.drops {
            0 => f.write_str("every character of the text has ids"),
            1 => f.write_str("1 character of the text has no id"),
            drops => write!(f, "{drops} characters of the text have no id"),
        }
    }
}

impl<T: fmt::Debug> std::error::Error for Encoded<T> {}

/// The text of ids, with how many of them were skipped because they have no piece.
///
/// ```
/// # use varitmol::{Model, Tables};
/// let model = Model::new(Tables::from_pieces(&["a", "b"]))?;
/// assert_eq!(model.decode(&[0, 1])?.whole()?, "ab");
///
/// let decoded = model.decode(&[0, 99, 1])?;
/// assert_eq!(decoded.skips(), 1);
/// assert_eq!(decoded.clone().with_skips(), ("ab".to_string(), 1));
/// assert_eq!(decoded.whole().unwrap_err().to_string(), "1 id has no piece");
/// # Ok::<(), Box<dyn std::error::Error>>(())
/// ```
#[must_use = "skipped ids are told here and nowhere else"]
#[derive(Debug, Clone, PartialEq, Eq)]
pub struct Decoded<T> {
    text: T,
    skips: usize,
}

impl<T> Decoded<T> {
    pub(crate) fn new(text: T, skips: usize) -> Self {
        Decoded { text, skips }
    }

    /// How many ids were skipped.
    pub fn skips(&self) -> usize {
        self.skips
    }

    /// The text and how many ids were skipped.
    pub fn with_skips(self) -> (T, usize) {
        (self.text, self.skips)
    }

    /// The text, if no id was skipped.
    ///
    /// # Errors
    ///
    /// Gives itself back if any was.
    pub fn whole(self) -> Result<T, Self> {
        if self.skips == 0 { Ok(self.text) } else { Err(self) }
    }
}

impl<T> fmt::Display for Decoded<T> {
    fn fmt(&self, f: &mut fmt::Formatter<'_>) -> fmt::Result {
        match self.skips {
            0 => f.write_str("every id has a piece"),
            1 => f.write_str("1 id has no piece"),
            skips => write!(f, "{skips} ids have no piece"),
        }
    }
}

impl<T: fmt::Debug> std::error::Error for Decoded<T> {}
