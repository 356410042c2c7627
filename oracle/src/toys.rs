//! Small models with every kind of split, step and token, for all short texts.

use crate::made::MARK;
use crate::model::{Model, Row, Scheme, Step, Token};

pub const LETTERS: [&str; 6] = ["a", "b", " ", MARK, ".", "<"];

fn rows(rows: &[[u32; 4]]) -> Vec<Row> {
    rows.iter().map(|&[left, right, result, rank]| Row { left, right, result, rank }).collect()
}

fn with(pieces: &[&str], merges: &[[u32; 4]]) -> Model {
    let mut pieces: Vec<Vec<u8>> = pieces.iter().map(|p| p.as_bytes().to_vec()).collect();
    let fallback = [0x2E, 0xE2, 0x96].map(|byte| {
        pieces.push(vec![byte]);
        (byte, pieces.len() as u32 - 1)
    });
    Model { pieces, fallback: fallback.into(), rows: rows(merges), ..Model::default() }
}

/// Pieces and rows: units that never cross, one crossing, crossings with nothing after the mark and punctuation inside pieces, and a piece with
/// two marks, which makes the whole text one unit.
fn bases() -> Vec<Model> {
    vec![
        with(&[MARK, "a", "b", "ab", "▁a", "."], &[[0, 1, 4, 1], [1, 2, 3, 0]]),
        with(&[MARK, "a", "b", "ab", "▁a", ".", "b▁a", "▁▁"], &[[0, 1, 4, 1], [1, 2, 3, 0], [2, 4, 6, 2], [0, 0, 7, 1]]),
        with(
            &[MARK, "a", "b", "a▁", "a.", "▁.", "aa", "aa▁", "<"],
            &[[1, 0, 3, 0], [1, 1, 6, 0], [6, 0, 7, 4], [1, 9, 4, 3], [0, 9, 5, 3], [1, 3, 7, 3]],
        ),
        with(&[MARK, "a", "b", "a▁b", "a▁b▁", "▁b", "ab", "<a"], &[[0, 2, 5, 7], [1, 5, 3, 7], [3, 0, 4, 7], [1, 2, 6, 7]]),
    ]
}

fn settings() -> Vec<(Vec<Step>, Option<(Scheme, bool)>)> {
    let prepend = || Step::Prepend(MARK.into());
    let replace = || Step::Replace(" ".into(), MARK.into());
    vec![
        (vec![], Some((Scheme::Always, false))),
        (vec![], Some((Scheme::First, false))),
        (vec![], Some((Scheme::Never, false))),
        (vec![], Some((Scheme::Always, true))),
        (vec![replace()], Some((Scheme::First, true))),
        (vec![replace()], None),
        (vec![prepend(), replace()], None),
        (vec![prepend(), replace()], Some((Scheme::Always, true))),
        (vec![Step::Strip(true, true), Step::Replace("b".into(), "a ".into())], Some((Scheme::Always, false))),
        (vec![Step::Collapse("a".into()), Step::Replace("".into(), ".".into())], None),
        (vec![], None),
    ]
}

fn token(content: &str, id: u32, lstrip: bool, rstrip: bool) -> Token {
    Token { content: content.into(), id, lstrip, rstrip }
}

pub fn models() -> Vec<Model> {
    let lists: [(Vec<Token>, Vec<Token>); 4] = [
        (vec![], vec![]),
        (vec![token("<", 50, true, true), token(" b", 51, false, false)], vec![]),
        (vec![token("<", 50, false, false), token("<a", 51, false, true), token("▁", 1, false, false)], vec![]),
        (vec![token(".", 52, true, false)], vec![token("<", 50, false, true), token("▁b", 51, true, false)]),
    ];
    let mut all = Vec::new();
    for base in bases() {
        for (steps, metaspace) in settings() {
            for (first, second) in &lists {
                let (first, second, steps) = (first.clone(), second.clone(), steps.clone());
                all.push(Model { first, second, steps, metaspace, ..base.clone() });
            }
        }
    }
    all
}

/// The texts of `length` letters, each once.
pub fn texts(length: u32) -> impl Iterator<Item = String> {
    (0..LETTERS.len().pow(length)).map(move |mut number| {
        let mut text = String::new();
        for _ in 0..length {
            text.push_str(LETTERS[number % LETTERS.len()]);
            number /= LETTERS.len();
        }
        text
    })
}
