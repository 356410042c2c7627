//! A file of cases with the Rust's answers, in the form of the stored cases. Ids, ranges and bytes are the Rust's; how many characters were
//! dropped, which the Rust does not count, is the library's.

use crate::compare::{Ask, Outcome, Sides, Subject};
use crate::dice::Dice;
use crate::json;
use crate::library::{Answer, Library};
use crate::made;
use std::io::{BufWriter, Write};

const ASKS: usize = 8;

/// Some cells of a result, then zeros; or untouched ones after a refusal.
fn cells<T: Copy + Default>(outcome: &Outcome<T>, room: usize, nine: T) -> Vec<T> {
    match outcome {
        Outcome::Given(given) | Outcome::Unclean(given) => {
            let mut cells = given.clone();
            cells.resize(room, T::default());
            cells
        }
        Outcome::Refused(..) => vec![nine; room],
    }
}

fn answer<T>(outcome: &Outcome<T>, drops: usize, skips: usize) -> Answer {
    match outcome {
        Outcome::Given(given) | Outcome::Unclean(given) => Answer { number: 0, place: 0, written: given.len(), drops, skips },
        Outcome::Refused(number, place) => Answer { number: *number, place: *place, ..Answer::default() },
    }
}

/// The scratch fields of a call: two lengths, and the bytes afterwards, which are untouched after 9 and 10.
fn scratch(answer: &Answer, length: usize) -> String {
    let after = json::hex(&vec![if answer.number == 0 { 0 } else { 5 }; length]);
    format!(r#""scratch":[{length},{length}],"scratch_after":["{after}","{after}"]"#)
}

fn call(subject: &mut Subject, pieces: usize, ask: &Ask) -> String {
    let asked = json::ask(ask);
    match ask {
        Ask::Encode { text, continuation } => {
            let rust = subject.rust_encode(text, *continuation);
            let drops = subject.encode(text.as_bytes(), *continuation, true).1.drops;
            let room = subject.room();
            let given = answer(&rust, drops, 0);
            let out = json::list(cells(&rust, room.0, 9));
            format!(r#"{{{asked},"room":{},{},"answer":{},"out":{out}}}"#, room.0, scratch(&given, room.1), json::answer(&given))
        }
        Ask::Damaged { bytes } => {
            let place = std::str::from_utf8(bytes).expect_err("a damaged text").valid_up_to();
            let given = Answer { number: 9, place, ..Answer::default() };
            format!(r#"{{{asked},"room":2,{},"answer":{},"out":[9,9]}}"#, scratch(&given, 2), json::answer(&given))
        }
        Ask::Fragments { text, target } | Ask::Joined { text, target } => {
            let rust = subject.rust_fragments(text, *target);
            let room = if let Outcome::Given(cells) = &rust { cells.len() + 1 } else { 3 };
            let out = json::list(cells(&rust, room, 9));
            format!(r#"{{{asked},"room":{room},"answer":{},"out":{out}}}"#, json::answer(&answer(&rust, 0, 0)))
        }
        Ask::Normalise { text, first } => {
            let rust = subject.rust_normalise(text, *first);
            let given = answer(&rust, 0, 0);
            let room = given.written + 1;
            let length = subject.normalise_room(text, *first);
            let out = json::hex(&cells(&rust, room, 9));
            format!(r#"{{{asked},"room":{room},{},"answer":{},"out":"{out}"}}"#, scratch(&given, length), json::answer(&given))
        }
        Ask::Decode { ids } => {
            let rust = subject.rust_decode(ids);
            let skips = ids.iter().filter(|&&id| id as usize >= pieces).count();
            let given = answer(&rust, 0, skips);
            let room = given.written + 1;
            format!(r#"{{{asked},"room":{room},"answer":{},"out":"{}"}}"#, json::answer(&given), json::hex(&cells(&rust, room, 9)))
        }
    }
}

pub fn write(library: &Library, path: &str, count: usize, seed: u64) -> std::io::Result<(usize, usize)> {
    let mut file = BufWriter::new(std::fs::File::create(path)?);
    let (mut models, mut calls) = (0, 0);
    while calls < count {
        let dice = &mut Dice::new(seed, models as u64);
        let model = made::model(dice);
        let sides = Sides::new(library, &model, None).expect("a model that the check accepts");
        let mut lines = Vec::new();
        while lines.len() < ASKS {
            let ask = crate::question(dice, &model);
            let short = match &ask {
                Ask::Encode { text, .. } | Ask::Fragments { text, .. } | Ask::Normalise { text, .. } => text.len() < 40,
                Ask::Damaged { bytes } => bytes.len() < 40 && std::str::from_utf8(bytes).is_err(),
                Ask::Joined { .. } => false,
                Ask::Decode { .. } => true,
            };
            if short {
                lines.push(call(&mut Subject::new(library, &model, &sides), model.pieces.len(), &ask));
            }
        }
        calls += lines.len();
        models += 1;
        writeln!(file, r#"{{"model":{},"calls":[{}]}}"#, json::model(&model), lines.join(","))?;
    }
    Ok((models, calls))
}
