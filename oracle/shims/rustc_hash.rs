//! `FxBuildHasher` as a value, which version 2 of `rustc-hash` has and version 1 has not.

#[derive(Clone, Copy, Default)]
pub struct FxBuildHasher;

impl std::hash::BuildHasher for FxBuildHasher {
    type Hasher = version_1::FxHasher;

    fn build_hasher(&self) -> Self::Hasher {
        Self::Hasher::default()
    }
}
