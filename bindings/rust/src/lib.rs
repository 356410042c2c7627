//! Varitmol for Rust: text to token ids, ids back to text, safe cuts for workers. Every call is proved to do what it promises; this crate
//! keeps the promises that a caller has to make in return.
//!
//! A [`Model`] is made of [`Tables`]. They are checked when it is made and cannot change afterwards, so no later call checks them again, and any
//! number of threads may use one model.
//!
//! ```
//! use varitmol::{Metaspace, Model, Row, Scheme, Tables};
//!
//! let tables = Tables::from_pieces(&["▁", "a", "b", "ab", "▁a"])
//!     .with_rows([Row { left: 0, right: 1, result: 4, rank: 1 }, Row { left: 1, right: 2, result: 3, rank: 0 }])
//!     .with_metaspace(Metaspace { scheme: Scheme::Always, split: false });
//! let model = Model::new(tables)?;
//!
//! let ids = model.encode("ab a")?.whole()?;
//! assert_eq!(ids, [0, 3, 4]);
//! assert_eq!(model.decode(&ids)?.whole()?, "ab a");
//!
//! // `c` has no piece: it is dropped, and that is told.
//! assert_eq!(model.encode("c")?.with_drops(), (vec![0], 1));
//! # Ok::<(), Box<dyn std::error::Error>>(())
//! ```
//!
//! What is refused comes back as a [`Refusal`]; what was left out comes back with the result, as an [`Encoded`] or a [`Decoded`], out of which
//! the value cannot be taken without its count.
//!
//! The crate links `libvaritmol.a`, which `rt lib` in crates/varitmol makes as crates/varitmol/out/libvaritmol.a. `VARITMOL_LIB_DIR` names
//! another folder to look for it.

#[allow(unsafe_code)]
mod ffi;

mod counted;
mod model;
mod refusal;
mod room;
mod tables;

pub use counted::{Decoded, Encoded};
pub use model::Model;
pub use refusal::Refusal;
pub use tables::{MAX_TEXT_LEN, Metaspace, NO_ID, Row, Scheme, Span, Step, Tables, Token, Tokens};
