//! A model, and the calls on it.

use std::fmt;
use std::ops::Range;

use crate::counted::{Decoded, Encoded};
use crate::ffi::{Answer, Prepared};
use crate::refusal::Refusal;
use crate::room;
use crate::tables::{MAX_TEXT_LEN, Tables};

/// No buffer is grown beyond this many cells.
const MOST_CELLS: usize = 1 << 28;

/// A model that was checked when it was made, with what is derived of it.
///
/// The tables cannot change behind it: it owns them, or borrows them for as long as it lives. It is `Sync`, and its calls share nothing.
///
/// The calls that give a `Vec` or a `String` allocate their buffers. Those that end in `_into` write into the caller's and allocate nothing; what
/// they give is the part that was written, and the rest of the buffer is zero then. For a model without a raw path they are lent two scratch
/// buffers, of which the shorter one's length counts.
///
/// ```
/// use varitmol::{Metaspace, Model, Scheme, Tables};
///
/// let pieces = Tables::from_pieces(&["▁", "a", "b"]);
/// let model = Model::new(pieces.with_metaspace(Metaspace { scheme: Scheme::Always, split: false }))?;
/// std::thread::scope(|scope| {
///     for _ in 0..2 {
///         scope.spawn(|| assert_eq!(model.encode("a b").unwrap().with_drops(), (vec![0, 1, 0, 2], 0)));
///     }
/// });
/// # Ok::<(), varitmol::Refusal>(())
/// ```
///
/// Nothing changes a table that a model borrows:
///
/// ```compile_fail,E0506
/// # use std::borrow::Cow;
/// # use varitmol::{Model, Tables};
/// let mut lookup = [0, 1];
/// let model = Model::new(Tables { lookup: Cow::Borrowed(&lookup), ..Tables::from_pieces(&["a", "b"]) })?;
/// lookup[0] = 7;
/// let _ = model.encode("a")?;
/// # Ok::<(), varitmol::Refusal>(())
/// ```
#[derive(Clone)]
pub struct Model<'a> {
    prepared: Prepared<'a>,
}

impl<'a> Model<'a> {
    /// Checks the tables and derives what all texts share.
    ///
    /// # Errors
    ///
    /// Numbers 1 to 8.
    pub fn new(tables: Tables<'a>) -> Result<Self, Refusal> {
        match Prepared::new(tables) {
            Ok(prepared) => Ok(Model { prepared }),
            Err(answer) => Err(Refusal::of(answer).expect("what is refused is answered by a number above 0")),
        }
    }

    /// The tables it was made of.
    pub fn tables(&self) -> &Tables<'a> {
        self.prepared.tables()
    }

    /// Whether the model is encoded straight from the text. Then encoding needs no scratch, and there are fragments and continuations.
    pub fn has_raw_path(&self) -> bool {
        self.prepared.has_raw_path()
    }

    /// The ids of a text.
    ///
    /// ```
    /// # use varitmol::{Metaspace, Model, Scheme, Tables};
    /// # let tables = Tables::from_pieces(&["▁", "a", "b"]);
    /// # let model = Model::new(tables.with_metaspace(Metaspace { scheme: Scheme::Always, split: false }))?;
    /// assert_eq!(model.encode("a b")?.whole()?, [0, 1, 0, 2]);
    /// assert_eq!(model.encode("a c")?.with_drops(), (vec![0, 1, 0], 1));
    /// # Ok::<(), Box<dyn std::error::Error>>(())
    /// ```
    ///
    /// # Errors
    ///
    /// [`WrongSize`](Refusal::WrongSize) for a text that is too long and [`BadText`](Refusal::BadText) for one that is not UTF-8.
    /// [`ScratchTooShort`](Refusal::ScratchTooShort) or [`ResultTooShort`](Refusal::ResultTooShort) where the steps would make 2^28
    /// bytes or more of it; [`encode_into`](Self::encode_into) has no such limit.
    pub fn encode(&self, text: impl AsRef<[u8]>) -> Result<Encoded<Vec<u32>>, Refusal> {
        let text = text.as_ref();
        let (scratch_len, out_len) = (self.scratch_room(text.len()), self.encode_room(text.len()));
        let (out, answer) = grown(text.len(), out_len, scratch_len, |out, scratch| self.prepared.encode(text, false, out, scratch))?;
        Ok(Encoded::new(out, answer.drops))
    }

    /// The ids of a text that goes on from an earlier one, as the fragments of a text after the first do: it gets no mark in front.
    ///
    /// ```
    /// # use varitmol::{Metaspace, Model, Scheme, Tables};
    /// # let tables = Tables::from_pieces(&["▁", "a", "b"]);
    /// # let model = Model::new(tables.with_metaspace(Metaspace { scheme: Scheme::Always, split: false }))?;
    /// assert_eq!(model.encode_continuation("a b")?.whole()?, [1, 0, 2]);
    /// # Ok::<(), Box<dyn std::error::Error>>(())
    /// ```
    ///
    /// # Errors
    ///
    /// Those of [`encode`](Self::encode), and [`NoRawPath`](Refusal::NoRawPath).
    pub fn encode_continuation(&self, text: impl AsRef<[u8]>) -> Result<Encoded<Vec<u32>>, Refusal> {
        let text = text.as_ref();
        let (out, answer) =
            grown(text.len(), self.encode_room(text.len()), 0, |out, scratch| self.prepared.encode(text, true, out, scratch))?;
        Ok(Encoded::new(out, answer.drops))
    }

    /// The ids of a text, in the caller's buffer.
    ///
    /// ```
    /// # use varitmol::{Metaspace, Model, Scheme, Tables};
    /// # let tables = Tables::from_pieces(&["▁", "a", "b"]);
    /// # let model = Model::new(tables.with_metaspace(Metaspace { scheme: Scheme::Always, split: false }))?;
    /// assert!(model.has_raw_path()); // so there is no need of scratch
    /// let mut ids = [9; 6];
    /// let (written, drops) = model.encode_into("a b", &mut ids, [&mut [], &mut []])?.with_drops();
    /// assert_eq!((&*written, drops), (&[0, 1, 0, 2][..], 0));
    /// assert_eq!(ids, [0, 1, 0, 2, 0, 0]);
    /// # Ok::<(), varitmol::Refusal>(())
    /// ```
    ///
    /// # Errors
    ///
    /// Those of [`encode`](Self::encode). The buffers always suffice if they are as long as [`encode_room`](Self::encode_room) and
    /// [`scratch_room`](Self::scratch_room) say.
    pub fn encode_into<'b>(
        &self,
        text: impl AsRef<[u8]>,
        out: &'b mut [u32],
        scratch: [&mut [u8]; 2],
    ) -> Result<Encoded<&'b mut [u32]>, Refusal> {
        let answer = accepted(self.prepared.encode(text.as_ref(), false, out, scratch))?;
        Ok(Encoded::new(&mut out[..answer.written], answer.drops))
    }

    /// The ids of a text that goes on from an earlier one, in the caller's buffer. It needs no scratch, as only a model with a raw path takes it.
    ///
    /// # Errors
    ///
    /// Those of [`encode_into`](Self::encode_into), and [`NoRawPath`](Refusal::NoRawPath).
    pub fn encode_continuation_into<'b>(&self, text: impl AsRef<[u8]>, out: &'b mut [u32]) -> Result<Encoded<&'b mut [u32]>, Refusal> {
        let answer = accepted(self.prepared.encode(text.as_ref(), true, out, [&mut [], &mut []]))?;
        Ok(Encoded::new(&mut out[..answer.written], answer.drops))
    }

    /// Ranges of a text that may be encoded apart, the first as a text and the others as continuations. None but the last is shorter than
    /// `target` bytes.
    ///
    /// ```
    /// # use varitmol::{Metaspace, Model, Scheme, Tables};
    /// # let tables = Tables::from_pieces(&["▁", "a", "b"]);
    /// # let model = Model::new(tables.with_metaspace(Metaspace { scheme: Scheme::Always, split: false }))?;
    /// assert_eq!(model.fragments("a b a", 2)?, [0..3, 3..5]);
    /// # Ok::<(), varitmol::Refusal>(())
    /// ```
    ///
    /// # Errors
    ///
    /// [`WrongSize`](Refusal::WrongSize) and [`BadText`](Refusal::BadText) for a text, [`NoRawPath`](Refusal::NoRawPath) for a model.
    pub fn fragments(&self, text: impl AsRef<[u8]>, target: usize) -> Result<Vec<Range<usize>>, Refusal> {
        let text = text.as_ref();
        let out_len = self.fragments_room(text.len(), target);
        let (out, _) = grown(text.len(), out_len, 0, |out, _| self.prepared.fragments(text, target, out))?;
        Ok(out.chunks_exact(2).map(|range| range[0] as usize..range[1] as usize).collect())
    }

    /// The same in the caller's buffer: two numbers a range, its start and its end.
    ///
    /// ```
    /// # use varitmol::{Metaspace, Model, Scheme, Tables};
    /// # let tables = Tables::from_pieces(&["▁", "a", "b"]);
    /// # let model = Model::new(tables.with_metaspace(Metaspace { scheme: Scheme::Always, split: false }))?;
    /// assert_eq!(model.fragments_into("a b a", 2, &mut [0; 8])?, [0, 3, 3, 5]);
    /// # Ok::<(), varitmol::Refusal>(())
    /// ```
    ///
    /// # Errors
    ///
    /// Those of [`fragments`](Self::fragments), and [`ResultTooShort`](Refusal::ResultTooShort).
    pub fn fragments_into<'b>(&self, text: impl AsRef<[u8]>, target: usize, out: &'b mut [u32]) -> Result<&'b mut [u32], Refusal> {
        let answer = accepted(self.prepared.fragments(text.as_ref(), target, out))?;
        Ok(&mut out[..answer.written])
    }

    /// What steps and metaspace make of a whole text, without a look at tokens. `first` says whether metaspace runs as on what stands before the
    /// first added token.
    ///
    /// ```
    /// # use varitmol::{Metaspace, Model, Scheme, Step, Tables};
    /// let tables = Tables::default().with_step(Step::Strip { left: true, right: true });
    /// let model = Model::new(tables.with_metaspace(Metaspace { scheme: Scheme::First, split: false }))?;
    /// assert_eq!(model.normalise(" a b ", true)?, "▁a▁b");
    /// assert_eq!(model.normalise(" a b ", false)?, "a▁b");
    /// # Ok::<(), varitmol::Refusal>(())
    /// ```
    ///
    /// # Errors
    ///
    /// Those of [`encode`](Self::encode).
    pub fn normalise(&self, text: impl AsRef<[u8]>, first: bool) -> Result<String, Refusal> {
        let text = text.as_ref();
        let len = self.normalise_room(text.len());
        let (out, _) = grown(text.len(), len, len, |out, scratch| self.prepared.normalise(text, first, out, scratch))?;
        Ok(String::from_utf8(out).expect("valid strings put for valid ones are valid UTF-8"))
    }

    /// The same in the caller's buffer.
    ///
    /// ```
    /// # use varitmol::{Model, Tables};
    /// let model = Model::new(Tables::default().with_replace("b", "cc"))?;
    /// let (mut out, mut one, mut other) = ([0; 8], [0; 8], [0; 8]);
    /// assert_eq!(model.normalise_into("abc", false, &mut out, [&mut one, &mut other])?, "accc");
    /// # Ok::<(), varitmol::Refusal>(())
    /// ```
    ///
    /// # Errors
    ///
    /// Those of [`encode_into`](Self::encode_into). The buffers always suffice if all three are as long as
    /// [`normalise_room`](Self::normalise_room) says.
    pub fn normalise_into<'b>(
        &self,
        text: impl AsRef<[u8]>,
        first: bool,
        out: &'b mut [u8],
        scratch: [&mut [u8]; 2],
    ) -> Result<&'b str, Refusal> {
        let answer = accepted(self.prepared.normalise(text.as_ref(), first, out, scratch))?;
        Ok(std::str::from_utf8(&out[..answer.written]).expect("valid strings put for valid ones are valid UTF-8"))
    }

    /// The text of ids.
    ///
    /// ```
    /// # use varitmol::{Metaspace, Model, Scheme, Tables};
    /// # let tables = Tables::from_pieces(&["▁", "a", "b"]);
    /// # let model = Model::new(tables.with_metaspace(Metaspace { scheme: Scheme::Always, split: false }))?;
    /// assert_eq!(model.decode(&[0, 1, 0, 2])?.whole()?, "a b");
    /// assert_eq!(model.decode(&[0, 99, 1])?.with_skips(), ("a".to_string(), 1));
    /// # Ok::<(), Box<dyn std::error::Error>>(())
    /// ```
    ///
    /// # Errors
    ///
    /// [`WrongSize`](Refusal::WrongSize) for more than [`MAX_TEXT_LEN`](crate::MAX_TEXT_LEN) ids.
    pub fn decode(&self, ids: &[u32]) -> Result<Decoded<String>, Refusal> {
        let mut out = vec![0; if ids.len() > MAX_TEXT_LEN { 0 } else { self.decode_room(ids) }];
        let answer = accepted(self.prepared.decode(ids, &mut out))?;
        out.truncate(answer.written);
        Ok(Decoded::new(String::from_utf8(out).expect("what is decoded has no stray byte"), answer.skips))
    }

    /// The text of ids, in the caller's buffer.
    ///
    /// ```
    /// # use varitmol::{Model, Tables};
    /// let model = Model::new(Tables::from_pieces(&["a", "b"]))?;
    /// assert_eq!(model.decode_into(&[1, 0], &mut [0; 6])?.with_skips(), ("ba", 0));
    /// # Ok::<(), varitmol::Refusal>(())
    /// ```
    ///
    /// # Errors
    ///
    /// Those of [`decode`](Self::decode), and [`ResultTooShort`](Refusal::ResultTooShort). The buffer always suffices if it is as long as
    /// [`decode_room`](Self::decode_room) says.
    pub fn decode_into<'b>(&self, ids: &[u32], out: &'b mut [u8]) -> Result<Decoded<&'b str>, Refusal> {
        let answer = accepted(self.prepared.decode(ids, out))?;
        let text = std::str::from_utf8(&out[..answer.written]).expect("what is decoded has no stray byte");
        Ok(Decoded::new(text, answer.skips))
    }

    /// How many cells always suffice for the ids of a text of that many bytes.
    pub fn encode_room(&self, text_len: usize) -> usize {
        room::encode(self.tables(), text_len)
    }

    /// How many bytes of each scratch buffer always suffice for encoding a text of that many bytes.
    pub fn scratch_room(&self, text_len: usize) -> usize {
        if self.has_raw_path() { 0 } else { self.normalise_room(text_len) }
    }

    /// How many bytes always suffice for what normalise makes of a text of that many bytes, and for each of its scratch buffers.
    pub fn normalise_room(&self, text_len: usize) -> usize {
        room::normalise(self.tables(), text_len)
    }

    /// How many numbers always suffice for the fragments of a text of that many bytes.
    pub fn fragments_room(&self, text_len: usize, target: usize) -> usize {
        room::fragments(text_len, target)
    }

    /// How many bytes always suffice for the text of these ids.
    pub fn decode_room(&self, ids: &[u32]) -> usize {
        room::decode(self.tables(), ids)
    }
}

impl fmt::Debug for Model<'_> {
    fn fmt(&self, f: &mut fmt::Formatter<'_>) -> fmt::Result {
        f.debug_struct("Model")
            .field("pieces", &(self.tables().piece_offsets.len() - 1))
            .field("rows", &self.tables().left.len())
            .field("has_raw_path", &self.has_raw_path())
            .finish_non_exhaustive()
    }
}

fn accepted(answer: Answer) -> Result<Answer, Refusal> {
    Refusal::of(answer).map_or(Ok(answer), Err)
}

/// Makes the call with buffers that begin near the text's length and grow as it asks for more, up to what always suffices.
fn grown<T: Clone + Default>(
    text_len: usize,
    out_suffices: usize,
    scratch_suffices: usize,
    mut call: impl FnMut(&mut [T], [&mut [u8]; 2]) -> Answer,
) -> Result<(Vec<T>, Answer), Refusal> {
    let begin = if text_len > MAX_TEXT_LEN { 0 } else { 4 * text_len + 16 };
    let (out_most, scratch_most) = (out_suffices.min(MOST_CELLS), scratch_suffices.min(MOST_CELLS));
    let (mut out_len, mut scratch_len) = (begin.min(out_most), begin.min(scratch_most));
    loop {
        let mut out = vec![T::default(); out_len];
        let (mut one, mut other) = (vec![0; scratch_len], vec![0; scratch_len]);
        match accepted(call(&mut out, [&mut one, &mut other])) {
            Err(Refusal::ScratchTooShort) if scratch_len < scratch_most => scratch_len = (2 * scratch_len).min(scratch_most),
            Err(Refusal::ResultTooShort) if out_len < out_most => out_len = (2 * out_len).min(out_most),
            answer => {
                let answer = answer?;
                out.truncate(answer.written);
                out.shrink_to_fit();
                return Ok((out, answer));
            }
        }
    }
}
