//! The toy models of docs/RULES.md, section 14.
#![allow(dead_code, reason = "each test file uses some of these")]

use varitmol::{Metaspace, Row, Scheme, Tables};

const PIECES: [&[u8]; 9] = ["▁".as_bytes(), b"a", b"b", b"ab", "▁a".as_bytes(), b".", b"\xc3", b"\xa9", "b▁a".as_bytes()];
const ROWS: [Row; 3] = [
    Row { left: 0, right: 1, result: 4, rank: 1 },
    Row { left: 1, right: 2, result: 3, rank: 0 },
    Row { left: 2, right: 4, result: 8, rank: 2 },
];

fn toy(pieces: usize, rows: usize) -> Tables<'static> {
    Tables::from_pieces(&PIECES[..pieces])
        .with_rows(ROWS[..rows].iter().copied())
        .with_fallback([(0xc3, 6), (0xa9, 7)])
        .with_metaspace(Metaspace { scheme: Scheme::Always, split: false })
}

pub fn t() -> Tables<'static> {
    toy(8, 2)
}

/// T with one piece and one row more.
pub fn u() -> Tables<'static> {
    toy(9, 3)
}
