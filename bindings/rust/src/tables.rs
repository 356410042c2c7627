//! The tables of a model: flat columns, owned or borrowed.

use std::borrow::Cow;

/// The most bytes a text may have, and the most ids a list given to [`decode`](crate::Model::decode).
pub const MAX_TEXT_LEN: usize = 1_048_576;

/// In the fallback ids: this byte has none.
pub const NO_ID: u32 = u32::MAX;

/// The columns of a model, each owned or borrowed. Any columns may be put here; [`Model::new`](crate::Model::new) says whether they are sound.
///
/// The default is a model without pieces, tokens, steps and metaspace. Columns can be filled in directly, as from a file, or be made of
/// strings by the functions below.
///
/// ```
/// use std::borrow::Cow;
/// use varitmol::{Model, Tables};
///
/// static OFFSETS: [u32; 3] = [0, 1, 2];
/// let tables = Tables {
///     piece_bytes: Cow::Borrowed(b"ab"),
///     piece_offsets: Cow::Borrowed(&OFFSETS),
///     lookup: Cow::Owned(vec![0, 1]),
///     ..Tables::default()
/// };
/// assert_eq!(tables, Tables::from_pieces(&["a", "b"]));
/// assert!(Model::new(tables).is_ok());
/// ```
#[derive(Debug, Clone, PartialEq, Eq)]
pub struct Tables<'a> {
    /// The pieces end to end, at most 524,288 of at most 255 bytes each and 8,388,608 in all.
    pub piece_bytes: Cow<'a, [u8]>,
    /// Where each piece begins, and last the length of the bytes: one number more than there are pieces. A piece's id is its place.
    pub piece_offsets: Cow<'a, [u32]>,
    /// Ids in the byte order of their pieces, each distinct piece that is not empty once.
    pub lookup: Cow<'a, [u32]>,
    /// For each of the 256 bytes the id of the piece that is this byte alone, or [`NO_ID`].
    pub fallback: Cow<'a, [u32]>,
    /// The left ids of the merge rows, at most 1,048,576. Rows ascend by left, then right.
    pub left: Cow<'a, [u32]>,
    /// The right ids of the merge rows.
    pub right: Cow<'a, [u32]>,
    /// What each row makes of its two sides: the id of a piece that is the two joined.
    pub result: Cow<'a, [u32]>,
    /// The ranks of the rows; lower ones merge first.
    pub rank: Cow<'a, [u32]>,
    /// Added tokens that are searched in the text.
    pub first: Tokens<'a>,
    /// Added tokens that are searched in what the steps make of the text.
    pub second: Tokens<'a>,
    /// The bytes that the strings of the steps lie in.
    pub step_bytes: Cow<'a, [u8]>,
    /// The normalization steps, at most 16.
    pub steps: Cow<'a, [Step]>,
    /// Whether spaces become marks (U+2581) and where one is put in front.
    pub metaspace: Option<Metaspace>,
}

/// A list of added tokens as columns, at most 8,192. The default has none.
#[derive(Debug, Clone, PartialEq, Eq)]
pub struct Tokens<'a> {
    /// The contents end to end, each of 1 to 255 bytes.
    pub bytes: Cow<'a, [u8]>,
    /// Where each content begins, and last the length of the bytes.
    pub offsets: Cow<'a, [u32]>,
    /// Their ids: any numbers.
    pub ids: Cow<'a, [u32]>,
    /// Whether a token takes the white space on its left.
    pub lstrip: Cow<'a, [bool]>,
    /// Whether a token takes the white space on its right.
    pub rstrip: Cow<'a, [bool]>,
}

/// An added token.
#[derive(Debug, Clone, Copy, PartialEq, Eq)]
pub struct Token<'a> {
    /// What it is in the text.
    pub content: &'a str,
    /// What it gives.
    pub id: u32,
    /// Whether it takes the white space on its left.
    pub lstrip: bool,
    /// Whether it takes the white space on its right.
    pub rstrip: bool,
}

/// A merge row: `left` and `right` side by side may become `result`.
#[derive(Debug, Clone, Copy, PartialEq, Eq)]
pub struct Row {
    /// The id on the left.
    pub left: u32,
    /// The id on the right.
    pub right: u32,
    /// What they become.
    pub result: u32,
    /// Lower ranks merge first.
    pub rank: u32,
}

/// A string of a step: where it lies in the step bytes, and how many bytes it has, at most 255.
#[derive(Debug, Clone, Copy, PartialEq, Eq)]
pub struct Span {
    /// Where it begins.
    pub place: u32,
    /// How many bytes it has.
    pub len: u32,
}

/// A normalization step.
#[derive(Debug, Clone, Copy, PartialEq, Eq)]
pub enum Step {
    /// Puts a string in front of a text that is not empty.
    Prepend(Span),
    /// Puts `content` for each `pattern`.
    Replace {
        /// What is replaced; the empty pattern stands in front of every character and at the end.
        pattern: Span,
        /// What is put there.
        content: Span,
    },
    /// Puts a string for each run of two or more spaces.
    CollapseSpaces(Span),
    /// Takes white space off the ends.
    Strip {
        /// At the front.
        left: bool,
        /// At the end.
        right: bool,
    },
}

/// What becomes of spaces.
#[derive(Debug, Clone, Copy, PartialEq, Eq)]
pub struct Metaspace {
    /// Where a mark is put in front.
    pub scheme: Scheme,
    /// Whether every mark begins a unit of its own.
    pub split: bool,
}

/// Where metaspace puts a mark in front.
#[derive(Debug, Clone, Copy, PartialEq, Eq)]
pub enum Scheme {
    /// Nowhere.
    Never,
    /// In front of every section, which is what stands between added tokens.
    Always,
    /// In front of what stands before the first added token.
    First,
}

/// Strings end to end, and their offsets. A total that no offset can say is said as the largest, which the model check refuses.
fn end_to_end<S: AsRef<[u8]>>(strings: impl IntoIterator<Item = S>) -> (Vec<u8>, Vec<u32>) {
    let (mut bytes, mut offsets) = (Vec::new(), vec![0]);
    for string in strings {
        bytes.extend_from_slice(string.as_ref());
        offsets.push(offset(bytes.len()));
    }
    (bytes, offsets)
}

fn offset(place: usize) -> u32 {
    u32::try_from(place).unwrap_or(u32::MAX)
}

impl Default for Tables<'_> {
    fn default() -> Self {
        Tables {
            piece_bytes: Cow::default(),
            piece_offsets: Cow::Owned(vec![0]),
            lookup: Cow::default(),
            fallback: Cow::Owned(vec![NO_ID; 256]),
            left: Cow::default(),
            right: Cow::default(),
            result: Cow::default(),
            rank: Cow::default(),
            first: Tokens::default(),
            second: Tokens::default(),
            step_bytes: Cow::default(),
            steps: Cow::default(),
            metaspace: None,
        }
    }
}

impl<'a> Tables<'a> {
    /// Tables with these pieces, and with the lookup list that goes with them; of equal pieces it names the first.
    pub fn from_pieces<P: AsRef<[u8]>>(pieces: &[P]) -> Self {
        let (piece_bytes, piece_offsets) = end_to_end(pieces);
        let mut lookup: Vec<u32> = (0..offset(pieces.len())).filter(|&id| !pieces[id as usize].as_ref().is_empty()).collect();
        lookup.sort_by_key(|&id| pieces[id as usize].as_ref());
        lookup.dedup_by_key(|id| pieces[*id as usize].as_ref());
        Tables { piece_bytes: piece_bytes.into(), piece_offsets: piece_offsets.into(), lookup: lookup.into(), ..Tables::default() }
    }

    /// With these fallback ids, a byte and its id each.
    pub fn with_fallback(mut self, ids: impl IntoIterator<Item = (u8, u32)>) -> Self {
        let mut fallback = vec![NO_ID; 256];
        for (byte, id) in ids {
            fallback[usize::from(byte)] = id;
        }
        self.fallback = fallback.into();
        self
    }

    /// With these merge rows, which are put in order.
    pub fn with_rows(mut self, rows: impl IntoIterator<Item = Row>) -> Self {
        let mut rows: Vec<Row> = rows.into_iter().collect();
        rows.sort_by_key(|row| (row.left, row.right));
        self.left = rows.iter().map(|row| row.left).collect();
        self.right = rows.iter().map(|row| row.right).collect();
        self.result = rows.iter().map(|row| row.result).collect();
        self.rank = rows.iter().map(|row| row.rank).collect();
        self
    }

    /// With this first list of added tokens.
    pub fn with_first(mut self, tokens: Tokens<'a>) -> Self {
        self.first = tokens;
        self
    }

    /// With this second list of added tokens.
    pub fn with_second(mut self, tokens: Tokens<'a>) -> Self {
        self.second = tokens;
        self
    }

    /// With a further step that puts a string in front.
    pub fn with_prepend(mut self, content: &str) -> Self {
        let content = self.span(content);
        self.with_step(Step::Prepend(content))
    }

    /// With a further step that replaces a string by another.
    pub fn with_replace(mut self, pattern: &str, content: &str) -> Self {
        let (pattern, content) = (self.span(pattern), self.span(content));
        self.with_step(Step::Replace { pattern, content })
    }

    /// With a further step that puts a string for each run of two or more spaces.
    pub fn with_collapse_spaces(mut self, content: &str) -> Self {
        let content = self.span(content);
        self.with_step(Step::CollapseSpaces(content))
    }

    /// With a further step, whose strings lie in `step_bytes`.
    pub fn with_step(mut self, step: Step) -> Self {
        self.steps.to_mut().push(step);
        self
    }

    /// With this metaspace.
    pub fn with_metaspace(mut self, metaspace: Metaspace) -> Self {
        self.metaspace = Some(metaspace);
        self
    }

    fn span(&mut self, string: &str) -> Span {
        let place = offset(self.step_bytes.len());
        self.step_bytes.to_mut().extend_from_slice(string.as_bytes());
        Span { place, len: offset(string.len()) }
    }

    pub(crate) fn metaspace_numbers(&self) -> (u8, u8) {
        self.metaspace.map_or((0, 0), |metaspace| (metaspace.scheme.number(), metaspace.split.into()))
    }
}

impl Default for Tokens<'_> {
    fn default() -> Self {
        Tokens { bytes: Cow::default(), offsets: Cow::Owned(vec![0]), ids: Cow::default(), lstrip: Cow::default(), rstrip: Cow::default() }
    }
}

impl Tokens<'_> {
    /// The columns of some tokens.
    ///
    /// ```
    /// # use varitmol::{Model, Tables, Token, Tokens};
    /// let tokens = Tokens::from_tokens(&[Token { content: "<n>", id: 50, lstrip: true, rstrip: false }]);
    /// let model = Model::new(Tables::from_pieces(&["a", "b"]).with_first(tokens))?;
    /// assert_eq!(model.encode("a <n>b")?.whole()?, [0, 50, 1]);
    /// # Ok::<(), Box<dyn std::error::Error>>(())
    /// ```
    pub fn from_tokens(tokens: &[Token<'_>]) -> Self {
        let (bytes, offsets) = end_to_end(tokens.iter().map(|token| token.content));
        Tokens {
            bytes: bytes.into(),
            offsets: offsets.into(),
            ids: tokens.iter().map(|token| token.id).collect(),
            lstrip: tokens.iter().map(|token| token.lstrip).collect(),
            rstrip: tokens.iter().map(|token| token.rstrip).collect(),
        }
    }
}

impl Step {
    /// The kind's number for the library.
    pub(crate) fn kind(self) -> u8 {
        match self {
            Step::Prepend(_) => 0,
            Step::Replace { .. } => 1,
            Step::CollapseSpaces(_) => 2,
            Step::Strip { .. } => 3,
        }
    }

    /// The four numbers that go with it.
    pub(crate) fn numbers(self) -> [u32; 4] {
        match self {
            Step::Prepend(content) | Step::CollapseSpaces(content) => [content.place, content.len, 0, 0],
            Step::Replace { pattern, content } => [pattern.place, pattern.len, content.place, content.len],
            Step::Strip { left, right } => [left.into(), right.into(), 0, 0],
        }
    }
}

impl Scheme {
    fn number(self) -> u8 {
        match self {
            Scheme::Never => 1,
            Scheme::Always => 2,
            Scheme::First => 3,
        }
    }
}
