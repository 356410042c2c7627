//! What a call refuses.

use std::fmt;

use crate::ffi::Answer;

/// Why a model, a text or a buffer was refused. A refusal leaves the result buffer as it was.
///
/// ```
/// use varitmol::{Model, Refusal, Tables};
///
/// let refusal = Model::new(Tables::from_pieces(&[b"\xe2\x96"])).unwrap_err();
/// assert_eq!(refusal, Refusal::BadPiece);
/// assert_eq!((refusal.number(), refusal.place()), (3, 0));
/// assert_eq!(refusal.to_string(), "a piece of two bytes or more is not valid UTF-8 (answer 3)");
/// ```
#[derive(Debug, Clone, Copy, PartialEq, Eq, Hash)]
pub enum Refusal {
    /// 1: something exceeds its largest size, the text included, columns of one table differ in length, an offset row is empty, or there are not
    /// 256 fallback ids.
    WrongSize,
    /// 2: offsets do not run in order from 0 to the end of their bytes, or a step's string passes the end of the step bytes.
    OffsetsAstray,
    /// 3: a piece of two bytes or more is not valid UTF-8.
    BadPiece,
    /// 4: the lookup list is out of order, incomplete, or names no piece or an empty one.
    BadLookup,
    /// 5: a fallback id is not that of the byte's piece.
    BadFallback,
    /// 6: merge rows are out of order, an id has no piece, or a result does not join its sides.
    BadRow,
    /// 7: the content of an added token is empty or not valid UTF-8.
    BadToken,
    /// 8: a string of a step is not valid UTF-8.
    BadStep,
    /// 9: the text is no valid UTF-8.
    BadText {
        /// The length of the text's longest valid prefix.
        place: usize,
    },
    /// 10: the model has no raw path, so it has no fragments and encodes no continuation.
    NoRawPath,
    /// 11: an output of a step or of metaspace is longer than the shorter scratch buffer.
    ScratchTooShort,
    /// 12: the result buffer is too short.
    ResultTooShort,
}

impl Refusal {
    /// The number that the library answers.
    pub fn number(self) -> u32 {
        match self {
            Refusal::WrongSize => 1,
            Refusal::OffsetsAstray => 2,
            Refusal::BadPiece => 3,
            Refusal::BadLookup => 4,
            Refusal::BadFallback => 5,
            Refusal::BadRow => 6,
            Refusal::BadToken => 7,
            Refusal::BadStep => 8,
            Refusal::BadText { .. } => 9,
            Refusal::NoRawPath => 10,
            Refusal::ScratchTooShort => 11,
            Refusal::ResultTooShort => 12,
        }
    }

    /// Where in the text, for [`Refusal::BadText`]; 0 for all others.
    pub fn place(self) -> usize {
        match self {
            Refusal::BadText { place } => place,
            _ => 0,
        }
    }

    /// The refusal that an answer is; none if it accepts.
    pub(crate) fn of(answer: Answer) -> Option<Self> {
        Some(match answer.number {
            0 => return None,
            1 => Refusal::WrongSize,
            2 => Refusal::OffsetsAstray,
            3 => Refusal::BadPiece,
            4 => Refusal::BadLookup,
            5 => Refusal::BadFallback,
            6 => Refusal::BadRow,
            7 => Refusal::BadToken,
            8 => Refusal::BadStep,
            9 => Refusal::BadText { place: answer.place },
            10 => Refusal::NoRawPath,
            11 => Refusal::ScratchTooShort,
            12 => Refusal::ResultTooShort,
            number => unreachable!("the library answers 0 to 12, not {number}"),
        })
    }
}

impl fmt::Display for Refusal {
    fn fmt(&self, f: &mut fmt::Formatter<'_>) -> fmt::Result {
        match self {
            Refusal::WrongSize => f.write_str("a table or the text exceeds its largest size, or columns of one table do not fit together"),
            Refusal::OffsetsAstray => f.write_str("offsets or strings of steps do not lie in order inside their bytes"),
            Refusal::BadPiece => f.write_str("a piece of two bytes or more is not valid UTF-8"),
            Refusal::BadLookup => f.write_str("the lookup list is out of order, incomplete, or names no piece"),
            Refusal::BadFallback => f.write_str("a fallback id is not that of the byte's piece"),
            Refusal::BadRow => f.write_str("a merge row stands out of order, names no piece, or its result does not join its sides"),
            Refusal::BadToken => f.write_str("the content of an added token is empty or not valid UTF-8"),
            Refusal::BadStep => f.write_str("a string of a step is not valid UTF-8"),
            Refusal::BadText { place } => write!(f, "the text is not valid UTF-8 from byte {place} on"),
            Refusal::NoRawPath => f.write_str("the model has no raw path: it has no fragments and encodes no continuation"),
            Refusal::ScratchTooShort => f.write_str("what a step or metaspace puts out does not fit into scratch"),
            Refusal::ResultTooShort => f.write_str("the result does not fit into its buffer"),
        }?;
        write!(f, " (answer {})", self.number())
    }
}

impl std::error::Error for Refusal {}
