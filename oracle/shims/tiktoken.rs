//! What sentencepiece.rs asks of the byte-level tokenizer: how much a cache may hold. Only how often caches are emptied depends on it.

pub struct Tokenizer;

impl Tokenizer {
    pub const DEFAULT_MAX_CACHE_BYTES: usize = 512 << 20;
}
