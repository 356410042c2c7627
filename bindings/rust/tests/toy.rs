//! What the toy models give: the table of docs/RULES.md, rules 14.3 and 14.4, in all forms of the calls.

mod common;

use common::{t, u};
use varitmol::{Metaspace, Model, Scheme, Tables, Token, Tokens};

/// The ids and drops of a text, which all forms of encoding must give.
fn encoded(tables: Tables<'_>, text: &str) -> (Vec<u32>, usize) {
    let model = Model::new(tables).unwrap();
    let given = model.encode(text).unwrap().with_drops();
    let mut out = vec![9; model.encode_room(text.len())];
    let (mut one, mut other) = (vec![5; model.scratch_room(text.len())], vec![5; model.scratch_room(text.len())]);
    let (written, drops) = model.encode_into(text, &mut out, [&mut one, &mut other]).unwrap().with_drops();
    assert_eq!((written.to_vec(), drops), given);
    assert!(out[given.0.len()..].iter().all(|&cell| cell == 0));
    assert!(one.iter().chain(&other).all(|&byte| byte == 0));
    given
}

#[test]
fn p1_to_p7_encode() {
    assert_eq!(encoded(t(), "ab a"), (vec![0, 3, 4], 0));
    assert_eq!(encoded(t(), " a"), (vec![4], 0));
    assert_eq!(encoded(t(), "é"), (vec![0, 6, 7], 0));
    assert_eq!(encoded(t(), "c"), (vec![0], 1));
    assert_eq!(encoded(t(), "a.b"), (vec![4, 5, 2], 0));
    assert_eq!(encoded(u(), "b a"), (vec![0, 8], 0));
    assert_eq!(encoded(u(), "b b"), (vec![0, 2, 0, 2], 0));
}

#[test]
fn p8_to_p10_fragments() {
    let (t, u) = (Model::new(t()).unwrap(), Model::new(u()).unwrap());
    assert_eq!(t.fragments("a b a", 0).unwrap(), [0..1, 1..3, 3..5]);
    assert_eq!(u.fragments("a b a", 0).unwrap(), [0..1, 1..5]);
    assert_eq!(t.fragments("a  b", 2).unwrap(), [0..4; 1]);
    assert_eq!(u.fragments("a b b", 0).unwrap(), [0..1, 1..3, 3..5]);
    let mut out = [9; 8];
    assert_eq!(t.fragments_into("a b a", 0, &mut out).unwrap(), [0, 1, 1, 3, 3, 5]);
    assert_eq!(out, [0, 1, 1, 3, 3, 5, 0, 0]);
}

#[test]
fn p11_and_p12_decode() {
    let model = Model::new(t()).unwrap();
    assert_eq!(model.decode(&[4]).unwrap().with_skips(), ("a".to_string(), 0));
    assert_eq!(model.decode(&[0, 99, 1]).unwrap().with_skips(), ("a".to_string(), 1));
    let mut out = [9; 3];
    assert_eq!(model.decode_into(&[0, 99, 1], &mut out).unwrap().with_skips(), ("a", 1));
    assert_eq!(out, [b'a', 0, 0]);
    // each stray byte becomes U+FFFD, a whole character none
    assert_eq!(model.decode(&[7, 6, 6, 7]).unwrap().whole().unwrap(), "\u{fffd}\u{fffd}é");
}

#[test]
fn tokens_and_splits() {
    let n = Tokens::from_tokens(&[Token { content: "<n>", id: 50, lstrip: false, rstrip: false }]);
    assert_eq!(encoded(t().with_first(n), "a<n>b"), (vec![4, 50, 0, 2], 0));
    let splits = t().with_metaspace(Metaspace { scheme: Scheme::Always, split: true });
    assert_eq!(Model::new(splits).unwrap().fragments("a  b", 2).unwrap(), [0..2, 2..4]);
}

#[test]
fn without_a_raw_path() {
    let tables = t().with_collapse_spaces("").with_replace("", "ab");
    let model = Model::new(tables.clone()).unwrap();
    assert!(!model.has_raw_path());
    assert_eq!(model.normalise("a  b", true).unwrap(), "▁abaabbab");
    assert_eq!(encoded(tables, "a  b"), (vec![0, 3, 1, 3, 2, 3], 0));
}

/// Steps that make far more of a text than it was: the buffers grow with it.
#[test]
fn growing_texts() {
    let many = "b".repeat(200);
    let model = Model::new(t().with_replace("a", &many).with_replace("b", &many)).unwrap();
    let ids = model.encode("aa").unwrap().whole().unwrap();
    assert_eq!(ids.len(), 1 + 2 * 200 * 200);
    assert_eq!(ids[1..], [2; 80_000]);
    assert_eq!(model.normalise("aa", false).unwrap().len(), 3 + 80_000);
}

#[test]
fn a_model_may_borrow_its_tables() {
    let owned = t();
    let borrowed = Tables {
        piece_bytes: (&*owned.piece_bytes).into(),
        piece_offsets: (&*owned.piece_offsets).into(),
        lookup: (&*owned.lookup).into(),
        ..owned.clone()
    };
    let model = Model::new(borrowed).unwrap();
    assert_eq!(model.tables(), &owned);
    assert_eq!(model.encode(b"ab a").unwrap().whole().unwrap(), [0, 3, 4]);
}
