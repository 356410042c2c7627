//! The library's C functions, loaded from a shared library. The order of what they take is that of include/varitmol.h.

use crate::lengths::{ADJACENCY_LEN, INDEX_LEN};
use crate::model::{Tables, Tokens};
use std::ffi::{CString, c_char, c_int, c_void};

#[repr(C)]
#[derive(Clone, Copy, Debug, Default, PartialEq, Eq)]
pub struct Answer {
    pub number: u32,
    pub place: usize,
    pub written: usize,
    pub drops: usize,
    pub skips: usize,
}

unsafe extern "C" {
    fn dlopen(path: *const c_char, flags: c_int) -> *mut c_void;
    fn dlsym(library: *mut c_void, name: *const c_char) -> *mut c_void;
}

const RTLD_NOW: c_int = 2;

/// A shared library that was loaded.
pub struct Shared(*mut c_void);

impl Shared {
    pub fn load(path: &str) -> Result<Shared, String> {
        let name = CString::new(path).map_err(|e| e.to_string())?;
        let library = unsafe { dlopen(name.as_ptr(), RTLD_NOW) };
        if library.is_null() { Err(format!("{path} cannot be loaded")) } else { Ok(Shared(library)) }
    }

    /// NULL where the library has no such function.
    pub fn symbol(&self, name: &str) -> *mut c_void {
        let name = CString::new(name).unwrap();
        unsafe { dlsym(self.0, name.as_ptr()) }
    }
}

/// A call on the model's columns, then its own arguments.
macro_rules! call {
    ($f:expr, $t:expr $(, $own:expr => $kind:ty)*) => {{
        type Bytes = *const u8;
        type Words = *const u32;
        type Flags = *const bool;
        type Function = unsafe extern "C" fn(
            Bytes, usize, Words, usize, Words, usize, Words, usize, Words, usize, Words, usize, Words, usize, Words, usize,
            Bytes, usize, Words, usize, Words, usize, Flags, usize, Flags, usize,
            Bytes, usize, Words, usize, Words, usize, Flags, usize, Flags, usize,
            Bytes, usize, Bytes, usize, Words, usize, u8, u8 $(, $kind)*) -> Answer;
        let t: &Tables = $t;
        let (one, two): (&Tokens, &Tokens) = (&t.first, &t.second);
        // The function was looked up by its name, and the types are those of the header.
        unsafe {
            let f: Function = std::mem::transmute($f);
            f(t.piece_bytes.as_ptr(), t.piece_bytes.len(), t.piece_offsets.as_ptr(), t.piece_offsets.len(),
              t.lookup.as_ptr(), t.lookup.len(), t.fallback.as_ptr(), t.fallback.len(),
              t.left.as_ptr(), t.left.len(), t.right.as_ptr(), t.right.len(),
              t.result.as_ptr(), t.result.len(), t.rank.as_ptr(), t.rank.len(),
              one.bytes.as_ptr(), one.bytes.len(), one.offsets.as_ptr(), one.offsets.len(), one.ids.as_ptr(), one.ids.len(),
              one.lstrip.as_ptr(), one.lstrip.len(), one.rstrip.as_ptr(), one.rstrip.len(),
              two.bytes.as_ptr(), two.bytes.len(), two.offsets.as_ptr(), two.offsets.len(), two.ids.as_ptr(), two.ids.len(),
              two.lstrip.as_ptr(), two.lstrip.len(), two.rstrip.as_ptr(), two.rstrip.len(),
              t.step_bytes.as_ptr(), t.step_bytes.len(), t.step_kinds.as_ptr(), t.step_kinds.len(),
              t.step_spans.as_ptr(), t.step_spans.len(), t.metaspace, t.split $(, $own)*)
        }
    }};
}

/// What is derived of a model once.
pub struct Prepared {
    pub adjacency: Vec<u64>,
    pub index: Vec<u32>,
}

pub struct Library {
    check: *mut c_void,
    normalise: *mut c_void,
    normalise_checked: *mut c_void,
    prepare: *mut c_void,
    encode: *mut c_void,
    encode_prepared: *mut c_void,
    fragments: *mut c_void,
    fragments_prepared: *mut c_void,
    decode: *mut c_void,
    decode_checked: *mut c_void,
}

impl Library {
    pub fn load(path: &str) -> Result<Library, String> {
        let shared = Shared::load(path)?;
        let symbol = |name: &str| shared.symbol(&format!("varitmol_{name}"));
        let needed = |name: &str| match symbol(name) {
            f if f.is_null() => Err(format!("{path} has no varitmol_{name}")),
            f => Ok(f),
        };
        Ok(Library {
            check: needed("check")?,
            normalise: needed("normalise")?,
            normalise_checked: needed("normalise_checked")?,
            prepare: needed("prepare")?,
            encode: needed("encode")?,
            encode_prepared: needed("encode_prepared")?,
            fragments: needed("fragments")?,
            fragments_prepared: needed("fragments_prepared")?,
            decode: symbol("decode"),
            decode_checked: symbol("decode_checked"),
        })
    }

    pub fn has_decode(&self) -> bool {
        !self.decode.is_null() && !self.decode_checked.is_null()
    }

    pub fn check(&self, t: &Tables) -> Answer {
        call!(self.check, t)
    }

    pub fn prepare(&self, t: &Tables) -> (Answer, Prepared) {
        let mut rows = Prepared { adjacency: vec![7; ADJACENCY_LEN], index: vec![7; INDEX_LEN] };
        (self.prepare_into(t, &mut rows), rows)
    }

    pub fn prepare_into(&self, t: &Tables, rows: &mut Prepared) -> Answer {
        let (adjacency, index) = (&mut rows.adjacency, &mut rows.index);
        call!(self.prepare, t, adjacency.as_mut_ptr() => *mut u64, adjacency.len() => usize,
            index.as_mut_ptr() => *mut u32, index.len() => usize)
    }

    pub fn normalise(&self, t: &Tables, checked: bool, text: &[u8], first: bool, out: &mut [u8], scratch: &mut [Vec<u8>; 2]) -> Answer {
        let [a, b] = scratch;
        call!(if checked { self.normalise_checked } else { self.normalise }, t,
            text.as_ptr() => *const u8, text.len() => usize, first => bool, out.as_mut_ptr() => *mut u8, out.len() => usize,
            a.as_mut_ptr() => *mut u8, a.len() => usize, b.as_mut_ptr() => *mut u8, b.len() => usize)
    }

    pub fn encode(&self, t: &Tables, text: &[u8], continuation: bool, out: &mut [u32], scratch: &mut [Vec<u8>; 2]) -> Answer {
        let [a, b] = scratch;
        call!(self.encode, t,
            text.as_ptr() => *const u8, text.len() => usize, continuation => bool, out.as_mut_ptr() => *mut u32, out.len() => usize,
            a.as_mut_ptr() => *mut u8, a.len() => usize, b.as_mut_ptr() => *mut u8, b.len() => usize)
    }

    /// `rows` are those that `prepare` gave for the same tables, which `check` accepts.
    pub fn encode_prepared(
        &self,
        t: &Tables,
        rows: &Prepared,
        text: &[u8],
        continuation: bool,
        out: &mut [u32],
        scratch: &mut [Vec<u8>; 2],
    ) -> Answer {
        let [a, b] = scratch;
        call!(self.encode_prepared, t, rows.adjacency.as_ptr() => *const u64, rows.adjacency.len() => usize,
            rows.index.as_ptr() => *const u32, rows.index.len() => usize,
            text.as_ptr() => *const u8, text.len() => usize, continuation => bool, out.as_mut_ptr() => *mut u32, out.len() => usize,
            a.as_mut_ptr() => *mut u8, a.len() => usize, b.as_mut_ptr() => *mut u8, b.len() => usize)
    }

    pub fn fragments(&self, t: &Tables, text: &[u8], target: usize, out: &mut [u32]) -> Answer {
        call!(self.fragments, t, text.as_ptr() => *const u8, text.len() => usize, target => usize,
            out.as_mut_ptr() => *mut u32, out.len() => usize)
    }

    /// `rows` as for `encode_prepared`.
    pub fn fragments_prepared(&self, t: &Tables, rows: &Prepared, text: &[u8], target: usize, out: &mut [u32]) -> Answer {
        call!(self.fragments_prepared, t, rows.adjacency.as_ptr() => *const u64, rows.adjacency.len() => usize,
            rows.index.as_ptr() => *const u32, rows.index.len() => usize,
            text.as_ptr() => *const u8, text.len() => usize, target => usize, out.as_mut_ptr() => *mut u32, out.len() => usize)
    }

    /// Only where `has_decode` says so.
    pub fn decode(&self, t: &Tables, checked: bool, ids: &[u32], out: &mut [u8]) -> Answer {
        assert!(self.has_decode());
        call!(if checked { self.decode_checked } else { self.decode }, t, ids.as_ptr() => *const u32, ids.len() => usize,
            out.as_mut_ptr() => *mut u8, out.len() => usize)
    }
}
