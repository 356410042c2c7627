//! A model as it is made here, as the library's tables, and as the published Rust holds it.

use crate::bpe::ranked_merge_key;
use crate::bpe::sentencepiece::{AddedTokenSpec, Metaspace, NormOp, PrependScheme, SentencePieceBPE, WordSplit};
use crate::token::TokenId;
use std::sync::Arc;

pub const NO_ID: u32 = u32::MAX;

#[derive(Clone, Debug, PartialEq)]
pub enum Step {
    Prepend(String),
    Replace(String, String),
    Collapse(String),
    Strip(bool, bool),
}

#[derive(Clone, Debug, PartialEq)]
pub struct Token {
    pub content: String,
    pub id: u32,
    pub lstrip: bool,
    pub rstrip: bool,
}

#[derive(Clone, Copy, Debug, PartialEq)]
pub struct Row {
    pub left: u32,
    pub right: u32,
    pub result: u32,
    pub rank: u32,
}

#[derive(Clone, Copy, Debug, PartialEq)]
pub enum Scheme {
    Never,
    Always,
    First,
}

#[derive(Clone, Debug, Default, PartialEq)]
pub struct Model {
    pub pieces: Vec<Vec<u8>>,
    /// Which of several equal pieces the lookup list names: the last one if true.
    pub last_of_equals: bool,
    /// Byte and id.
    pub fallback: Vec<(u8, u32)>,
    pub rows: Vec<Row>,
    pub first: Vec<Token>,
    pub second: Vec<Token>,
    pub steps: Vec<Step>,
    /// The scheme and the split flag.
    pub metaspace: Option<(Scheme, bool)>,
}

#[derive(Default)]
pub struct Tokens {
    pub bytes: Vec<u8>,
    pub offsets: Vec<u32>,
    pub ids: Vec<u32>,
    pub lstrip: Vec<bool>,
    pub rstrip: Vec<bool>,
}

/// The columns that the library's calls take.
#[derive(Default)]
pub struct Tables {
    pub piece_bytes: Vec<u8>,
    pub piece_offsets: Vec<u32>,
    pub lookup: Vec<u32>,
    pub fallback: Vec<u32>,
    pub left: Vec<u32>,
    pub right: Vec<u32>,
    pub result: Vec<u32>,
    pub rank: Vec<u32>,
    pub first: Tokens,
    pub second: Tokens,
    pub step_bytes: Vec<u8>,
    pub step_kinds: Vec<u8>,
    pub step_spans: Vec<u32>,
    pub metaspace: u8,
    pub split: u8,
}

/// Strings end to end, and where each begins and the last ends.
fn joined<'a>(strings: impl Iterator<Item = &'a [u8]>) -> (Vec<u8>, Vec<u32>) {
    let (mut bytes, mut offsets) = (Vec::new(), vec![0]);
    for string in strings {
        bytes.extend_from_slice(string);
        offsets.push(bytes.len() as u32);
    }
    (bytes, offsets)
}

impl Tokens {
    fn new(tokens: &[Token]) -> Tokens {
        let (bytes, offsets) = joined(tokens.iter().map(|t| t.content.as_bytes()));
        Tokens {
            bytes,
            offsets,
            ids: tokens.iter().map(|t| t.id).collect(),
            lstrip: tokens.iter().map(|t| t.lstrip).collect(),
            rstrip: tokens.iter().map(|t| t.rstrip).collect(),
        }
    }
}

impl Model {
    /// Ids in the byte order of their pieces, each distinct piece that is not empty once.
    pub fn lookup(&self) -> Vec<u32> {
        let mut ids: Vec<u32> = (0..self.pieces.len() as u32).filter(|&id| !self.pieces[id as usize].is_empty()).collect();
        let piece = |id: &u32| self.pieces[*id as usize].as_slice();
        ids.sort_by(|a, b| piece(a).cmp(piece(b)).then(if self.last_of_equals { b.cmp(a) } else { a.cmp(b) }));
        ids.dedup_by(|a, b| piece(a) == piece(b));
        ids
    }

    pub fn tables(&self) -> Tables {
        let (piece_bytes, piece_offsets) = joined(self.pieces.iter().map(Vec::as_slice));
        let mut rows = self.rows.clone();
        rows.sort_by_key(|r| (r.left, r.right));
        let mut fallback = vec![NO_ID; 256];
        for &(byte, id) in &self.fallback {
            fallback[byte as usize] = id;
        }
        let (mut step_bytes, mut step_kinds, mut step_spans) = (Vec::new(), Vec::new(), Vec::new());
        for step in &self.steps {
            let mut span = |string: &str| {
                let place = step_bytes.len() as u32;
                step_bytes.extend_from_slice(string.as_bytes());
                [place, string.len() as u32]
            };
            let (kind, numbers) = match step {
                Step::Prepend(content) => (0, [span(content), [0, 0]]),
                Step::Replace(pattern, content) => (1, [span(pattern), span(content)]),
                Step::Collapse(content) => (2, [span(content), [0, 0]]),
                Step::Strip(left, right) => (3, [[*left as u32, *right as u32], [0, 0]]),
            };
            step_kinds.push(kind);
            step_spans.extend(numbers.concat());
        }
        Tables {
            piece_bytes,
            piece_offsets,
            lookup: self.lookup(),
            fallback,
            left: rows.iter().map(|r| r.left).collect(),
            right: rows.iter().map(|r| r.right).collect(),
            result: rows.iter().map(|r| r.result).collect(),
            rank: rows.iter().map(|r| r.rank).collect(),
            first: Tokens::new(&self.first),
            second: Tokens::new(&self.second),
            step_bytes,
            step_kinds,
            step_spans,
            metaspace: match self.metaspace {
                None => 0,
                Some((Scheme::Never, _)) => 1,
                Some((Scheme::Always, _)) => 2,
                Some((Scheme::First, _)) => 3,
            },
            split: self.metaspace.is_some_and(|(_, split)| split) as u8,
        }
    }

    /// The rows as the Rust gets them. It reads the highest rank as none (docs/DIFFERENCES.md); ranks count by their order alone, so where a
    /// row has that one, all are made smaller without changing their order.
    fn rust_rows(&self) -> Vec<Row> {
        let mut rows = self.rows.clone();
        if rows.iter().any(|r| r.rank == u32::MAX) {
            let mut ranks: Vec<u32> = rows.iter().map(|r| r.rank).collect();
            ranks.sort_unstable();
            ranks.dedup();
            for row in &mut rows {
                row.rank = ranks.binary_search(&row.rank).unwrap() as u32;
            }
        }
        rows
    }

    /// The published Rust's model, with its caches bounded by `budget` bytes.
    pub fn rust(&self, budget: Option<usize>) -> SentencePieceBPE {
        let specs = |tokens: &[Token]| {
            let spec = |t: &Token| AddedTokenSpec { content: t.content.clone(), id: TokenId(t.id), lstrip: t.lstrip, rstrip: t.rstrip };
            tokens.iter().map(spec).collect()
        };
        let vocab: Vec<Arc<[u8]>> = self.pieces.iter().map(|p| p.as_slice().into()).collect();
        let mut byte_fallback_ids = [None; 256];
        for &(byte, id) in &self.fallback {
            byte_fallback_ids[byte as usize] = Some(TokenId(id));
        }
        let mut model = SentencePieceBPE {
            merges: self
                .rust_rows()
                .iter()
                .map(|r| (ranked_merge_key(TokenId(r.left), TokenId(r.right)), (TokenId(r.result), r.rank)))
                .collect(),
            vocab_inv: self.lookup().iter().map(|&id| (vocab[id as usize].clone(), TokenId(id))).collect(),
            vocab,
            byte_fallback_ids,
            added_tokens: specs(&self.first),
            norm_added_tokens: specs(&self.second),
            norm_ops: self
                .steps
                .iter()
                .map(|step| match step.clone() {
                    Step::Prepend(content) => NormOp::Prepend(content),
                    Step::Replace(pattern, content) => NormOp::Replace { pattern, content },
                    Step::Collapse(content) => NormOp::CollapseSpaces { content },
                    Step::Strip(left, right) => NormOp::Strip { left, right },
                })
                .collect(),
            metaspace: self.metaspace.map(|(scheme, split)| Metaspace {
                prepend: match scheme {
                    Scheme::Never => PrependScheme::Never,
                    Scheme::Always => PrependScheme::Always,
                    Scheme::First => PrependScheme::First,
                },
                split,
            }),
            word_split: WordSplit::None,
            raw_prepend: None,
            space_init: Vec::new(),
            ascii_init: [None; 128],
            added_matcher: None,
            split_bytes: [0; 8],
            split_safe: Vec::new(),
            cross_pieces: Vec::new(),
            cross_prev: [0; 4],
            max_cache_bytes: budget,
        };
        model.finalize_speed_paths();
        model
    }
}
