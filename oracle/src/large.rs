//! Models of 32,000 pieces and more than 60,000 rows, and texts of several hundred KiB: the Rust's larger path.

use crate::compare::Ask;
use crate::dice::Dice;
use crate::made::MARK;
use crate::model::{Model, Row, Scheme, Step, Token};
use std::collections::HashMap;

const PIECES: usize = 32_000;
const LETTERS: &[u8] = b"etaoin";

/// All short strings of a few letters, some of them behind a mark, then longer ones that begin with those. Two pieces out of three splits of
/// a piece have a row.
fn pieces_and_rows(dice: &mut Dice) -> (Vec<Vec<u8>>, Vec<Row>) {
    let mut pieces: Vec<Vec<u8>> = (0..=255).map(|byte| vec![byte]).collect();
    let mut ids: HashMap<Vec<u8>, u32> = HashMap::new();
    let mut strings: Vec<Vec<u8>> = ["", MARK, "é", "漢", ".", ",", "\"", ",\"", ".\""].iter().map(|s| s.as_bytes().to_vec()).collect();
    let mut known: HashMap<Vec<u8>, ()> = strings.iter().map(|s| (s.clone(), ())).collect();
    let mut at = 0;
    while strings.len() + pieces.len() < PIECES + 1 {
        let short = at < strings.len() && strings[at].len() < 8 && strings.len() < PIECES * 2 / 3;
        let base = if short { strings[at].clone() } else { strings[dice.below(strings.len())].clone() };
        at += 1;
        let ends: Vec<u8> = if short { LETTERS.to_vec() } else { vec![*dice.pick(LETTERS)] };
        for end in ends {
            let longer = [base.as_slice(), &[end]].concat();
            if longer.len() <= 16 && strings.len() + pieces.len() < PIECES + 1 && known.insert(longer.clone(), ()).is_none() {
                strings.push(longer);
            }
        }
    }
    for string in strings.into_iter().skip(1) {
        ids.insert(string.clone(), pieces.len() as u32);
        pieces.push(string);
    }
    let mut rows = Vec::new();
    for (id, piece) in pieces.iter().enumerate().skip(256) {
        for cut in 1..piece.len() {
            if let (Some(&left), Some(&right)) = (ids.get(&piece[..cut]), ids.get(&piece[cut..]))
                && dice.percent(66)
            {
                rows.push(Row { left, right, result: id as u32, rank: dice.below(50_000) as u32 });
            }
        }
    }
    (pieces, rows)
}

/// Words, some of them longer than 32 letters, punctuation, a few letters that no piece spells.
fn text(dice: &mut Dice, length: usize) -> String {
    let mut text = String::new();
    while text.len() < length {
        let letters = if dice.percent(2) { dice.between(30, 90) } else { dice.between(1, 11) };
        for _ in 0..letters {
            text.push(*dice.pick(LETTERS) as char);
        }
        text.push_str(
            *dice.pick(&[" ", " ", " ", " ", " ", " ", ", ", ". ", ".\" ", "  ", MARK, "é ", "漢", "\n", "😀 ", " <t7> ", "<t499>"]),
        );
    }
    text
}

/// What is asked of the large models: each with a name and its questions.
pub fn cases(seed: u64) -> Vec<(&'static str, Model, Vec<Ask>)> {
    let mut dice = Dice::new(seed, u64::MAX);
    let dice = &mut dice;
    let (pieces, rows) = pieces_and_rows(dice);
    assert!(pieces.len() == PIECES && rows.len() > 60_000, "{} pieces, {} rows", pieces.len(), rows.len());
    let fallback: Vec<(u8, u32)> = (0..=255).map(|byte| (byte, byte as u32)).collect();
    let base = Model { last_of_equals: true, pieces, rows, fallback, ..Model::default() };
    let tokens: Vec<Token> =
        (0..500).map(|n| Token { content: format!("<t{n}>"), id: 40_000 + n, lstrip: n % 3 == 1, rstrip: n % 2 == 1 }).collect();
    let replace = || Step::Replace(" ".into(), MARK.into());
    let always = Some((Scheme::Always, false));
    let mut crossing = base.clone();
    crossing.pieces.extend(["n▁t", "t▁e", ".▁a", "o▁"].map(|piece| piece.as_bytes().to_vec()));
    let id = |bytes: &[u8]| base.pieces.iter().rposition(|p| p == bytes).unwrap() as u32;
    let count = base.pieces.len() as u32;
    for (number, (left, right)) in [("n", "▁t"), ("t", "▁e"), (".", "▁a"), ("o", "▁")].into_iter().enumerate() {
        crossing.rows.push(Row { left: id(left.as_bytes()), right: id(right.as_bytes()), result: count + number as u32, rank: 3 });
    }
    let mut whole = crossing.clone();
    whole.pieces.push("a▁t▁".as_bytes().to_vec());
    let models = [
        ("metaspace Always, 700 KiB", Model { metaspace: always, ..base.clone() }, 700 << 10),
        (
            "metaspace First, 500 tokens, 300 KiB",
            Model { metaspace: Some((Scheme::First, false)), first: tokens.clone(), ..base.clone() },
            300 << 10,
        ),
        (
            "Prepend and Replace, crossing pieces, 300 KiB",
            Model { steps: vec![Step::Prepend(MARK.into()), replace()], ..crossing.clone() },
            300 << 10,
        ),
        ("a split at every mark, 300 KiB", Model { metaspace: Some((Scheme::Always, true)), ..base.clone() }, 300 << 10),
        (
            "off the raw path, 300 KiB",
            Model {
                steps: vec![Step::Strip(true, true), Step::Collapse(" ".into())],
                metaspace: always,
                second: tokens[..20].to_vec(),
                ..base.clone()
            },
            300 << 10,
        ),
        ("one unit for the whole text, 16 KiB", Model { metaspace: always, ..whole }, 16 << 10),
    ];
    let mut all = Vec::new();
    for (name, model, length) in models {
        let text = text(dice, length);
        let ids = (0..200_000).map(|_| dice.below(model.pieces.len() + 9) as u32).collect();
        let mut asks =
            vec![Ask::Encode { text: text.clone(), continuation: false }, Ask::Encode { text: text.clone(), continuation: true }];
        asks.extend([0, 100, 4096, 1 << 16].map(|target| Ask::Fragments { text: text.clone(), target }));
        asks.push(Ask::Joined { text: text.clone(), target: 4096 });
        asks.extend([true, false].map(|first| Ask::Normalise { text: text.clone(), first }));
        asks.push(Ask::Decode { ids });
        all.push((name, model, asks));
    }
    all
}
