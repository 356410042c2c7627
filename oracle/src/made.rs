//! Small models and texts, made to be hard: pieces that cross marks, equal and empty pieces, equal ranks, tokens that overlap and strip, steps
//! that are nearly those of the raw path, texts whose lengths lie around the borders of blocks, keys and short merges.

use crate::dice::Dice;
use crate::model::{Model, Row, Scheme, Step, Token};
use std::collections::{HashMap, HashSet};

pub const MARK: &str = "\u{2581}";

/// Letters of one to four bytes, all the punctuation that may start a unit and some that may not, white space, a NUL, look-alikes of the
/// mark and of white space.
const LETTERS: &[&str] = &[
    "a",
    "b",
    "c",
    "a",
    "b",
    " ",
    " ",
    MARK,
    MARK,
    ".",
    ",",
    "\"",
    ")",
    ";",
    ":",
    "!",
    "?",
    "-",
    "<",
    ">",
    "\0",
    "\t",
    "\n",
    "\r\n",
    "\u{85}",
    "\u{a0}",
    "\u{1680}",
    "\u{2003}",
    "\u{2028}",
    "\u{202f}",
    "\u{205f}",
    "\u{3000}",
    "\u{200b}",
    "\u{180e}",
    "\u{feff}",
    "\u{2580}",
    "\u{2582}",
    "\u{2013}",
    "é",
    "è",
    "漢",
    "😀",
    "\u{10ffff}",
    "\u{7ff}",
    "\u{800}",
];

/// Lengths around the borders that the Rust has: keys of 15 bytes, blocks of 16 and 32, merges of 32 ids, pieces of 255 bytes.
const LENGTHS: &[usize] = &[14, 15, 16, 17, 31, 32, 33, 34, 47, 48, 49, 63, 64, 65, 95, 96, 97, 127, 128, 129, 254, 255, 256, 257];

const MOST_PIECE: usize = 255;

fn string(dice: &mut Dice, letters: &[&str], low: usize, high: usize) -> String {
    (0..dice.between(low, high)).map(|_| *dice.pick(letters)).collect()
}

fn sound(piece: &[u8]) -> bool {
    piece.len() <= MOST_PIECE && (piece.len() == 1 || std::str::from_utf8(piece).is_ok())
}

fn rank(dice: &mut Dice, kind: usize, made: usize) -> u32 {
    match kind {
        0 => dice.below(4) as u32,
        1 => made as u32,
        2 => dice.next() as u32,
        _ => u32::MAX - dice.below(3) as u32,
    }
}

fn tokens(dice: &mut Dice, letters: &[&str], pieces: usize) -> Vec<Token> {
    let mut list: Vec<Token> = Vec::new();
    for _ in 0..dice.between(1, 4) {
        let content = match list.last() {
            Some(last) if dice.percent(30) => last.content.clone() + &string(dice, letters, 0, 2),
            _ => string(dice, letters, 1, 3),
        };
        let id = if dice.flag() { dice.below(pieces + 1) as u32 } else { dice.next() as u32 };
        list.push(Token { content, id, lstrip: dice.percent(35), rstrip: dice.percent(35) });
    }
    list
}

fn steps(dice: &mut Dice, letters: &[&str]) -> (Vec<Step>, Option<(Scheme, bool)>) {
    let scheme = *dice.pick(&[Scheme::Never, Scheme::Always, Scheme::First]);
    let metaspace = Some((scheme, dice.percent(30)));
    let maybe = if dice.flag() { metaspace } else { None };
    let prepend = Step::Prepend(MARK.into());
    let replace = Step::Replace(" ".into(), MARK.into());
    let any = |dice: &mut Dice| match dice.below(4) {
        0 => Step::Prepend(string(dice, letters, 0, 2)),
        1 => Step::Replace(string(dice, letters, 0, 2), string(dice, letters, 0, 2)),
        2 => Step::Collapse(string(dice, letters, 0, 2)),
        _ => Step::Strip(dice.flag(), dice.flag()),
    };
    match dice.below(9) {
        0..=2 => (vec![], metaspace),
        3 => (vec![replace], maybe),
        4 => (vec![prepend, replace], None),
        5 => (vec![prepend, replace], metaspace),
        6 => (vec![replace, prepend], maybe),
        7 => (vec![any(dice), replace], maybe),
        _ => ((0..dice.below(5)).map(|_| any(dice)).collect(), maybe),
    }
}

pub fn model(dice: &mut Dice) -> Model {
    let mut letters: Vec<&str> = (0..dice.between(2, 9)).map(|_| *dice.pick(LETTERS)).collect();
    letters.push(*dice.pick(&["a", " ", MARK]));
    let mut pieces: Vec<Vec<u8>> = Vec::new();
    let mut rows: Vec<Row> = Vec::new();
    let mut paired: HashSet<(u32, u32)> = HashSet::new();
    for letter in letters.iter().chain(&[MARK]) {
        if dice.percent(85) {
            pieces.push(letter.as_bytes().to_vec());
        }
        for &byte in letter.as_bytes() {
            if dice.percent(if letter.len() > 1 { 60 } else { 20 }) {
                pieces.push(vec![byte]);
            }
        }
    }
    for _ in 0..dice.below(3) {
        let again = if pieces.is_empty() || dice.flag() { Vec::new() } else { dice.pick(&pieces).clone() };
        pieces.insert(dice.below(pieces.len() + 1), again);
    }
    let kind = dice.below(4);
    for _ in 0..dice.below(14) {
        if pieces.is_empty() {
            break;
        }
        let (left, right) = (dice.below(pieces.len()), dice.below(pieces.len()));
        let whole = [pieces[left].as_slice(), &pieces[right]].concat();
        if sound(&whole) {
            pieces.push(whole);
            if dice.percent(90) && paired.insert((left as u32, right as u32)) {
                let rank = rank(dice, kind, rows.len());
                rows.push(Row { left: left as u32, right: right as u32, result: pieces.len() as u32 - 1, rank });
            }
        }
    }
    for _ in 0..dice.below(3) {
        pieces.push(string(dice, &letters, 2, 4).into_bytes());
    }
    if dice.percent(3) {
        let crossing = format!("{}{MARK}{}", *dice.pick(&["a", "b", "é"]), *dice.pick(&["", "a", "b"]));
        for _ in 0..dice.between(30, 34) {
            pieces.push(crossing.as_bytes().to_vec());
        }
    }
    if dice.percent(3) {
        let mut length = 1;
        while length <= MOST_PIECE {
            pieces.push(vec![b'a'; length]);
            length = if length == 128 { MOST_PIECE } else { 2 * length };
        }
    }
    let mut spelled: HashMap<&[u8], Vec<u32>> = HashMap::new();
    for (id, piece) in pieces.iter().enumerate() {
        spelled.entry(piece).or_default().push(id as u32);
    }
    for left in 0..pieces.len() as u32 {
        for right in 0..pieces.len() as u32 {
            let whole = [pieces[left as usize].as_slice(), &pieces[right as usize]].concat();
            if let Some(results) = spelled.get(whole.as_slice())
                && dice.percent(40)
                && paired.insert((left, right))
            {
                let rank = rank(dice, kind, rows.len());
                rows.push(Row { left, right, result: *dice.pick(results), rank });
            }
        }
    }
    let mut fallback = Vec::new();
    for byte in 0..=255 {
        if let Some(ids) = spelled.get([byte].as_slice())
            && dice.percent(85)
        {
            fallback.push((byte, *dice.pick(ids)));
        }
    }
    let (steps, metaspace) = steps(dice, &letters);
    letters.extend(["<", " "]);
    let first = if dice.flag() { tokens(dice, &letters, pieces.len()) } else { Vec::new() };
    let second = if dice.percent(25) { tokens(dice, &letters, pieces.len()) } else { Vec::new() };
    Model { last_of_equals: dice.flag(), fallback, rows, first, second, steps, metaspace, pieces }
}

/// A text for a model: of its pieces, its tokens, letters and white space.
pub fn text(dice: &mut Dice, model: &Model) -> String {
    let length = match dice.below(20) {
        0..=11 => dice.below(24),
        12..=17 => *dice.pick(LENGTHS),
        18 => dice.below(120),
        _ => dice.below(700),
    };
    // Where no piece adds to a text, all of them empty or bytes that are no UTF-8, something else must.
    let adds = |piece: &Vec<u8>| !piece.is_empty() && std::str::from_utf8(piece).is_ok();
    let own = match dice.between(1, 10) * 10 {
        100 if !model.pieces.iter().any(adds) => 90,
        own => own,
    };
    let run = dice.percent(15);
    let mut text = String::new();
    while text.len() < length {
        let at = text.len();
        match dice.below(100) {
            n if n < own && !model.pieces.is_empty() => {
                text.push_str(std::str::from_utf8(dice.pick(&model.pieces).as_slice()).unwrap_or(""))
            }
            n if n % 10 == 1 && !model.first.is_empty() => text.push_str(&dice.pick(&model.first).content),
            n if n % 10 == 2 && !model.second.is_empty() => text.push_str(&dice.pick(&model.second).content),
            n if n % 10 < 5 => text.push_str(*dice.pick(&[" ", " ", MARK])),
            _ => text.push_str(*dice.pick(LETTERS)),
        }
        if run && text.len() > at {
            let again = text[at..].repeat(dice.below(40));
            text.push_str(&again);
        }
    }
    let end = (0..=length.min(text.len())).rev().find(|&end| text.is_char_boundary(end)).unwrap();
    text.truncate(end);
    text
}

/// Ids for decode: of pieces, now and then of none.
pub fn ids(dice: &mut Dice, model: &Model) -> Vec<u32> {
    let count = dice.below(14);
    (0..count).map(|_| if dice.percent(90) { dice.below(model.pieces.len() + 1) as u32 } else { dice.next() as u32 }).collect()
}

/// A text that is perhaps no UTF-8 any more.
pub fn damaged(dice: &mut Dice, text: &str) -> Vec<u8> {
    let mut bytes = text.as_bytes().to_vec();
    for _ in 0..dice.between(1, 3) {
        let at = dice.below(bytes.len() + 1);
        match dice.below(4) {
            0 => bytes.truncate(at),
            1 if at < bytes.len() => drop(bytes.remove(at)),
            2 if at < bytes.len() => bytes[at] ^= 1 << dice.below(8),
            _ => bytes.insert(at, *dice.pick(&[0x80, 0xBF, 0xC0, 0xC2, 0xE0, 0xE2, 0xED, 0xA0, 0xF0, 0xF4, 0x90, 0xF5, 0xFF])),
        }
    }
    bytes
}
