//! One question to both sides, and whether they say the same.

use crate::bpe::sentencepiece::{Encoder, SentencePieceBPE};
use crate::library::{Answer, Library, Prepared};
use crate::model::{Model, Tables};
use crate::token::TokenId;

#[derive(Clone, Debug)]
pub enum Ask {
    Encode {
        text: String,
        continuation: bool,
    },
    Fragments {
        text: String,
        target: usize,
    },
    /// Whether the fragments, encoded apart, give the ids of the whole.
    Joined {
        text: String,
        target: usize,
    },
    Normalise {
        text: String,
        first: bool,
    },
    Decode {
        ids: Vec<u32>,
    },
    /// Bytes that may be no UTF-8.
    Damaged {
        bytes: Vec<u8>,
    },
}

pub const NAMES: [&str; 6] = ["encode", "fragments", "fragments joined", "normalise", "decode", "damaged texts"];

impl Ask {
    /// Its place in `NAMES`.
    pub fn kind(&self) -> usize {
        match self {
            Ask::Encode { .. } => 0,
            Ask::Fragments { .. } => 1,
            Ask::Joined { .. } => 2,
            Ask::Normalise { .. } => 3,
            Ask::Decode { .. } => 4,
            Ask::Damaged { .. } => 5,
        }
    }
}

/// What a call leaves: a refusal's number, or the result, which zeros follow.
#[derive(Clone, Debug, PartialEq)]
pub enum Outcome<T> {
    Refused(u32, usize),
    Given(Vec<T>),
    /// Something other than zeros follows the result.
    Unclean(Vec<T>),
}

pub struct Difference {
    pub call: &'static str,
    pub rust: String,
    pub library: String,
}

/// A model on both sides.
pub struct Subject<'a> {
    library: &'a Library,
    model: &'a Model,
    tables: &'a Tables,
    rows: &'a Prepared,
    rust: &'a SentencePieceBPE,
    encoder: Encoder<'a>,
    cells: Vec<u32>,
    bytes: Vec<u8>,
    scratch: [Vec<u8>; 2],
}

/// What is made of a model before the first question.
pub struct Sides {
    pub tables: Tables,
    pub rows: Prepared,
    pub rust: SentencePieceBPE,
}

impl Sides {
    /// None where the library refuses the model, with the answer's number.
    pub fn new(library: &Library, model: &Model, budget: Option<usize>) -> Result<Sides, u32> {
        let tables = model.tables();
        let (answer, rows) = library.prepare(&tables);
        match answer.number.max(library.check(&tables).number) {
            0 => Ok(Sides { tables, rows, rust: model.rust(budget) }),
            number => Err(number),
        }
    }
}

/// Calls until the buffers are long enough, and reads the result.
fn outcome<T: Copy + Default + PartialEq>(
    out: &mut Vec<T>,
    scratch: &mut [Vec<u8>; 2],
    nine: T,
    mut call: impl FnMut(&mut [T], &mut [Vec<u8>; 2]) -> Answer,
) -> (Outcome<T>, Answer) {
    const MOST: usize = 1 << 26;
    loop {
        out.fill(nine);
        let answer = call(out, scratch);
        match answer.number {
            0 => {
                let given = out[..answer.written].to_vec();
                let clean = out[answer.written..].iter().all(|&cell| cell == T::default());
                return (if clean { Outcome::Given(given) } else { Outcome::Unclean(given) }, answer);
            }
            11 if scratch[0].len() < MOST => scratch.iter_mut().for_each(|s| s.resize(2 * s.len() + 8, 5)),
            12 if out.len() < MOST => out.resize(2 * out.len() + 8, nine),
            number => return (Outcome::Refused(number, answer.place), answer),
        }
    }
}

fn numbers(ids: &[TokenId]) -> Vec<u32> {
    ids.iter().map(|id| id.0).collect()
}

impl<'a> Subject<'a> {
    pub fn new(library: &'a Library, model: &'a Model, sides: &'a Sides) -> Subject<'a> {
        Subject {
            library,
            model,
            tables: &sides.tables,
            rows: &sides.rows,
            rust: &sides.rust,
            encoder: sides.rust.encoder(),
            cells: vec![9; 8],
            bytes: vec![9; 8],
            scratch: [vec![5; 8], vec![5; 8]],
        }
    }

    /// The ids that the Rust gives; refused as the rules say where a continuation is asked of a model that has none.
    pub fn rust_encode(&mut self, text: &str, continuation: bool) -> Outcome<u32> {
        if continuation && !self.rust.supports_fragment_split() {
            return Outcome::Refused(10, 0);
        }
        let mut ids = Vec::new();
        self.encoder.encode_raw_fragment_cb(text, !continuation, &mut |run: &[TokenId]| ids.extend(numbers(run)));
        Outcome::Given(ids)
    }

    pub fn rust_fragments(&self, text: &str, target: usize) -> Outcome<u32> {
        if !self.rust.supports_fragment_split() {
            return Outcome::Refused(10, 0);
        }
        let ranges = self.rust.safe_fragment_ranges(text, target);
        Outcome::Given(ranges.iter().flat_map(|r| [r.start as u32, r.end as u32]).collect())
    }

    pub fn rust_normalise(&self, text: &str, first: bool) -> Outcome<u8> {
        Outcome::Given(self.rust.normalize(text, first).as_bytes().to_vec())
    }

    /// The bytes that the Rust gives, but for the grouping of stray bytes: each becomes a replacement character here (docs/DIFFERENCES.md),
    /// and the Rust decodes the text in which that is done.
    pub fn rust_decode(&self, ids: &[u32]) -> Outcome<u8> {
        let whole: Vec<u8> = ids.iter().filter_map(|&id| self.model.pieces.get(id as usize)).flatten().copied().collect();
        if std::str::from_utf8(&whole).is_ok() {
            let ids: Vec<TokenId> = ids.iter().map(|&id| TokenId(id)).collect();
            return Outcome::Given(self.rust.decode(&ids));
        }
        let mut mended = Vec::new();
        for chunk in whole.utf8_chunks() {
            mended.extend_from_slice(chunk.valid().as_bytes());
            chunk.invalid().iter().for_each(|_| mended.extend_from_slice("\u{fffd}".as_bytes()));
        }
        let only = Model { pieces: vec![mended], steps: self.model.steps.clone(), metaspace: self.model.metaspace, ..Model::default() };
        Outcome::Given(only.rust(None).decode(&[TokenId(0)]))
    }

    pub fn encode(&mut self, text: &[u8], continuation: bool, prepared: bool) -> (Outcome<u32>, Answer) {
        let (library, tables, rows) = (self.library, self.tables, self.rows);
        outcome(&mut self.cells, &mut self.scratch, 9, |out, scratch| {
            if prepared {
                library.encode_prepared(tables, rows, text, continuation, out, scratch)
            } else {
                library.encode(tables, text, continuation, out, scratch)
            }
        })
    }

    fn fragments(&mut self, text: &[u8], target: usize, prepared: bool) -> Outcome<u32> {
        let (library, tables, rows) = (self.library, self.tables, self.rows);
        let call = |out: &mut [u32], _: &mut _| {
            if prepared {
                library.fragments_prepared(tables, rows, text, target, out)
            } else {
                library.fragments(tables, text, target, out)
            }
        };
        outcome(&mut self.cells, &mut self.scratch, 9, call).0
    }

    fn normalise(&mut self, text: &[u8], first: bool, checked: bool) -> Outcome<u8> {
        let (library, tables) = (self.library, self.tables);
        outcome(&mut self.bytes, &mut self.scratch, 9, |out, scratch| library.normalise(tables, checked, text, first, out, scratch)).0
    }

    fn decode(&mut self, ids: &[u32], checked: bool) -> (Outcome<u8>, Answer) {
        let (library, tables) = (self.library, self.tables);
        outcome(&mut self.bytes, &mut self.scratch, 9, |out, _| library.decode(tables, checked, ids, out))
    }

    /// How long the result and the scratch buffers are by now: long enough for the last call.
    pub fn room(&self) -> (usize, usize) {
        (self.cells.len(), self.scratch[0].len())
    }

    /// How long scratch has to be, at most, for a text.
    pub fn normalise_room(&mut self, text: &str, first: bool) -> usize {
        self.normalise(text.as_bytes(), first, true);
        self.scratch[0].len()
    }

    /// How many calls of the library were compared, or the first that differs. A panic on the Rust's side is a difference too.
    pub fn compare(&mut self, ask: &Ask) -> Result<usize, Difference> {
        let answered = std::panic::catch_unwind(std::panic::AssertUnwindSafe(|| self.answers(ask)));
        answered.unwrap_or_else(|_| Err(Difference { call: "any", rust: "panics".into(), library: "does not".into() }))
    }

    fn answers(&mut self, ask: &Ask) -> Result<usize, Difference> {
        match ask {
            Ask::Encode { text, continuation } => {
                let rust = self.rust_encode(text, *continuation);
                for (call, prepared) in [("varitmol_encode", false), ("varitmol_encode_prepared", true)] {
                    same(call, &rust, &self.encode(text.as_bytes(), *continuation, prepared).0)?;
                }
                Ok(2)
            }
            Ask::Fragments { text, target } => {
                let rust = self.rust_fragments(text, *target);
                for (call, prepared) in [("varitmol_fragments", false), ("varitmol_fragments_prepared", true)] {
                    same(call, &rust, &self.fragments(text.as_bytes(), *target, prepared))?;
                }
                Ok(2)
            }
            Ask::Joined { text, target } => {
                let Outcome::Given(ranges) = self.fragments(text.as_bytes(), *target, true) else {
                    return Ok(0);
                };
                let rust = self.rust_encode(text, false);
                let mut joined = Vec::new();
                for (number, range) in ranges.chunks(2).enumerate() {
                    let fragment = &text.as_bytes()[range[0] as usize..range[1] as usize];
                    match self.encode(fragment, number > 0, true).0 {
                        Outcome::Given(ids) => joined.extend(ids),
                        other => same("varitmol_encode_prepared of a fragment", &rust, &other)?,
                    }
                }
                same("varitmol_encode_prepared of each fragment", &rust, &Outcome::Given(joined))?;
                Ok(1)
            }
            Ask::Normalise { text, first } => {
                let rust = self.rust_normalise(text, *first);
                for (call, checked) in [("varitmol_normalise", false), ("varitmol_normalise_checked", true)] {
                    same(call, &rust, &self.normalise(text.as_bytes(), *first, checked))?;
                }
                Ok(2)
            }
            Ask::Decode { ids } => {
                if !self.library.has_decode() {
                    return Ok(0);
                }
                let rust = self.rust_decode(ids);
                let skips = ids.iter().filter(|&&id| id as usize >= self.model.pieces.len()).count();
                for (call, checked) in [("varitmol_decode", false), ("varitmol_decode_checked", true)] {
                    let (library, answer) = self.decode(ids, checked);
                    same(call, &rust, &library)?;
                    same("skips of varitmol_decode", &skips, &answer.skips)?;
                }
                Ok(2)
            }
            Ask::Damaged { bytes } => {
                let Err(error) = std::str::from_utf8(bytes) else {
                    return Ok(0);
                };
                let place = error.valid_up_to();
                same("varitmol_encode of a damaged text", &Outcome::Refused(9, place), &self.encode(bytes, false, true).0)?;
                same("varitmol_fragments of a damaged text", &Outcome::Refused(9, place), &self.fragments(bytes, 1, true))?;
                same("varitmol_normalise of a damaged text", &Outcome::Refused(9, place), &self.normalise(bytes, true, true))?;
                Ok(3)
            }
        }
    }
}

fn same<T: PartialEq + std::fmt::Debug>(call: &'static str, rust: &T, library: &T) -> Result<(), Difference> {
    if rust == library {
        return Ok(());
    }
    Err(Difference { call, rust: format!("{rust:?}"), library: format!("{library:?}") })
}
