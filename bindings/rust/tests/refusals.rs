//! Every refusal, each with its number, its place, and what it leaves.

mod common;

use std::borrow::Cow;

use common::t;
use varitmol::{MAX_TEXT_LEN, Model, Refusal, Row, Span, Step, Tables, Token, Tokens};

fn refused(tables: Tables<'_>, expected: Refusal, number: u32) {
    let refusal = Model::new(tables).unwrap_err();
    assert_eq!(refusal, expected);
    assert_eq!((refusal.number(), refusal.place()), (number, 0));
    assert!(refusal.to_string().ends_with(&format!(" (answer {number})")));
}

#[test]
fn of_models() {
    refused(Tables { fallback: Cow::Owned(vec![0; 255]), ..t() }, Refusal::WrongSize, 1);
    refused(Tables { piece_offsets: Cow::default(), ..t() }, Refusal::WrongSize, 1);
    refused(Tables { rank: Cow::Owned(vec![0]), ..t() }, Refusal::WrongSize, 1);
    refused((0..17).fold(t(), |tables, _| tables.with_step(Step::Strip { left: true, right: true })), Refusal::WrongSize, 1);
    refused(Tables { piece_offsets: Cow::Owned(vec![0, 3, 4, 5, 7, 11, 12, 13, 15]), ..t() }, Refusal::OffsetsAstray, 2);
    refused(t().with_step(Step::Prepend(Span { place: u32::MAX, len: 1 })), Refusal::OffsetsAstray, 2);
    refused(Tables::from_pieces(&[b"a\xc3"]), Refusal::BadPiece, 3);
    refused(Tables { lookup: Cow::Owned(vec![5, 3, 1, 2, 7, 6, 0, 4]), ..t() }, Refusal::BadLookup, 4);
    refused(t().with_fallback([(0xa9, 6)]), Refusal::BadFallback, 5);
    refused(t().with_rows([Row { left: 1, right: 2, result: 4, rank: 0 }]), Refusal::BadRow, 6);
    refused(t().with_rows([Row { left: 1, right: 99, result: 3, rank: 0 }]), Refusal::BadRow, 6);
    let empty = Tokens::from_tokens(&[Token { content: "", id: 50, lstrip: false, rstrip: false }]);
    refused(t().with_first(empty.clone()), Refusal::BadToken, 7);
    refused(t().with_second(empty), Refusal::BadToken, 7);
    let half = Tables { step_bytes: Cow::Borrowed(b"\xc3"), ..t() };
    refused(half.with_step(Step::Prepend(Span { place: 0, len: 1 })), Refusal::BadStep, 8);
}

#[test]
fn of_texts() {
    let model = Model::new(t()).unwrap();
    let long = vec![b'a'; MAX_TEXT_LEN + 1];
    assert_eq!(model.encode(&long).unwrap_err(), Refusal::WrongSize);
    assert_eq!(model.encode_continuation(&long).unwrap_err(), Refusal::WrongSize);
    assert_eq!(model.normalise(&long, true).unwrap_err(), Refusal::WrongSize);
    assert_eq!(model.fragments(&long, 0).unwrap_err(), Refusal::WrongSize);
    assert_eq!(model.decode(&vec![0; MAX_TEXT_LEN + 1]).unwrap_err(), Refusal::WrongSize);
    assert!(model.encode(&long[1..]).is_ok());

    let text = b"ab\xe2\x96";
    let refusals = [
        model.encode(text).unwrap_err(),
        model.encode_continuation(text).unwrap_err(),
        model.normalise(text, false).unwrap_err(),
        model.fragments(text, 0).unwrap_err(),
    ];
    for refusal in refusals {
        assert_eq!(refusal, Refusal::BadText { place: 2 });
        assert_eq!((refusal.number(), refusal.place()), (9, 2));
        assert_eq!(refusal.to_string(), "the text is not valid UTF-8 from byte 2 on (answer 9)");
    }
}

#[test]
fn of_models_without_a_raw_path() {
    let model = Model::new(t().with_step(Step::Strip { left: true, right: false })).unwrap();
    assert_eq!(model.fragments("", 0).unwrap_err(), Refusal::NoRawPath);
    assert_eq!(model.encode_continuation("").unwrap_err(), Refusal::NoRawPath);
    let refusal = model.encode_continuation_into("a", &mut [9; 8]).unwrap_err();
    assert_eq!((refusal, refusal.number(), refusal.place()), (Refusal::NoRawPath, 10, 0));
    assert_eq!(model.encode(" a").unwrap().whole().unwrap(), [4]);
}

/// A cell less than is needed, and then just as many.
#[test]
fn of_buffers() {
    let strips = Model::new(t().with_step(Step::Strip { left: true, right: false })).unwrap();
    let (mut out, mut one, mut other) = ([9; 4], [5; 6], [5; 3]);
    let refusal = strips.encode_into("a", &mut out, [&mut one, &mut other]).unwrap_err();
    assert_eq!((refusal, refusal.number(), refusal.place()), (Refusal::ScratchTooShort, 11, 0));
    assert_eq!((out, one, other), ([9; 4], [0; 6], [0; 3]));
    let mut other = [5; 4];
    assert_eq!(strips.encode_into("a", &mut out, [&mut one, &mut other]).unwrap().whole().unwrap(), [4]);
    let mut bytes = [9; 4];
    assert_eq!(strips.normalise_into("a", true, &mut bytes[..3], [&mut one, &mut other]).unwrap_err(), Refusal::ResultTooShort);
    assert_eq!(strips.normalise_into("a", true, &mut bytes, [&mut one, &mut other]).unwrap(), "▁a");

    let model = Model::new(t()).unwrap();
    let mut out = [9; 5];
    let refusal = model.encode_into("ab a", &mut out[..4], [&mut [], &mut []]).unwrap_err();
    assert_eq!((refusal, refusal.number(), refusal.place()), (Refusal::ResultTooShort, 12, 0));
    assert_eq!(out, [9; 5]);
    assert_eq!(model.encode_into("ab a", &mut out, [&mut [], &mut []]).unwrap().whole().unwrap(), [0, 3, 4]);

    assert_eq!(model.fragments_into("a b", 0, &mut [9; 3]).unwrap_err(), Refusal::ResultTooShort);
    assert_eq!(model.fragments_into("a b", 0, &mut [9; 4]).unwrap(), [0, 1, 1, 3]);
    assert_eq!(model.decode_into(&[3], &mut [9; 1]).unwrap_err(), Refusal::ResultTooShort);
    assert_eq!(model.decode_into(&[3], &mut [9; 2]).unwrap().whole().unwrap(), "ab");
}
