//! A charsmap that has no values: the step that runs one was not carried over, and no model made here holds it.

pub enum Precompiled {}

impl Precompiled {
    pub fn transform(&self, _: &str) -> Option<&str> {
        match *self {}
    }

    pub fn normalize_string(&self, _: &str) -> String {
        match *self {}
    }
}
