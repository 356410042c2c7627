//! The names of `aho-corasick` 1 that sentencepiece.rs uses, over version 0.7.

pub use version_0_7::MatchKind;

pub struct AhoCorasick(version_0_7::AhoCorasick);
pub struct Match(version_0_7::Match);
pub struct PatternId(usize);
pub struct Builder(version_0_7::AhoCorasickBuilder);

pub enum AhoCorasickKind {
    DFA,
}

impl AhoCorasick {
    pub fn builder() -> Builder {
        Builder(version_0_7::AhoCorasickBuilder::new())
    }

    pub fn find_iter<'a>(&'a self, text: &'a [u8]) -> impl Iterator<Item = Match> + 'a {
        self.0.find_iter(text).map(Match)
    }
}

impl Builder {
    pub fn match_kind(&mut self, kind: MatchKind) -> &mut Self {
        self.0.match_kind(kind);
        self
    }

    pub fn kind(&mut self, kind: Option<AhoCorasickKind>) -> &mut Self {
        self.0.dfa(kind.is_some());
        self
    }

    pub fn build<P: AsRef<[u8]>>(&self, patterns: impl IntoIterator<Item = P>) -> Result<AhoCorasick, String> {
        Ok(AhoCorasick(self.0.build(patterns)))
    }
}

impl Match {
    pub fn start(&self) -> usize {
        self.0.start()
    }

    pub fn end(&self) -> usize {
        self.0.end()
    }

    pub fn pattern(&self) -> PatternId {
        PatternId(self.0.pattern())
    }
}

impl PatternId {
    pub fn as_usize(&self) -> usize {
        self.0
    }
}
