//! SentencePiece, loaded from a shared library that bench/peer.cc makes.

use crate::library::Shared;
use std::ffi::{CString, c_char, c_void};

pub struct Peer {
    peer: *mut c_void,
    encode: unsafe extern "C" fn(*mut c_void, *const u8, usize, *mut *const i32) -> usize,
    decode: unsafe extern "C" fn(*mut c_void, *const u32, usize, *mut *const u8) -> usize,
}

impl Peer {
    pub fn load(library: &str, model: &str) -> Result<Peer, String> {
        let shared = Shared::load(library)?;
        let path = CString::new(model).map_err(|e| e.to_string())?;
        // The types are those of bench/peer.cc.
        unsafe {
            let load: unsafe extern "C" fn(*const c_char) -> *mut c_void = std::mem::transmute(shared.symbol("peer_load"));
            let peer = load(path.as_ptr());
            if peer.is_null() {
                return Err(format!("SentencePiece cannot read {model}"));
            }
            Ok(Peer {
                peer,
                encode: std::mem::transmute(shared.symbol("peer_encode")),
                decode: std::mem::transmute(shared.symbol("peer_decode")),
            })
        }
    }

    pub fn encode(&self, text: &[u8]) -> &[i32] {
        let mut ids = std::ptr::null();
        unsafe {
            let count = (self.encode)(self.peer, text.as_ptr(), text.len(), &mut ids);
            if count == 0 { &[] } else { std::slice::from_raw_parts(ids, count) }
        }
    }

    pub fn decode(&self, ids: &[u32]) -> &[u8] {
        let mut text = std::ptr::null();
        unsafe {
            let count = (self.decode)(self.peer, ids.as_ptr(), ids.len(), &mut text);
            std::slice::from_raw_parts(text, count)
        }
    }
}
