//! Models and calls as JSON, in the form of the stored cases: a model's columns, bytes in hex, and what a call was lent and left.

use crate::compare::Ask;
use crate::library::Answer;
use crate::model::{Model, NO_ID, Tables, Tokens};
use std::fmt::Write;

pub fn hex(bytes: &[u8]) -> String {
    bytes.iter().fold(String::new(), |mut all, byte| {
        write!(all, "{byte:02x}").unwrap();
        all
    })
}

pub fn list<T: std::fmt::Display>(values: impl IntoIterator<Item = T>) -> String {
    format!("[{}]", values.into_iter().map(|v| v.to_string()).collect::<Vec<_>>().join(","))
}

fn tokens(tokens: &Tokens) -> String {
    let flags = |flags: &[bool]| list(flags.iter().map(|&flag| flag as u8));
    let (offsets, ids) = (list(&tokens.offsets), list(&tokens.ids));
    format!(
        r#"{{"bytes":"{}","offsets":{offsets},"ids":{ids},"lstrip":{},"rstrip":{}}}"#,
        hex(&tokens.bytes),
        flags(&tokens.lstrip),
        flags(&tokens.rstrip)
    )
}

pub fn model(model: &Model) -> String {
    let t: Tables = model.tables();
    let fallback: Vec<String> =
        t.fallback.iter().enumerate().filter(|(_, id)| **id != NO_ID).map(|(byte, id)| format!("\"{byte}\":{id}")).collect();
    let steps = t.step_kinds.iter().zip(t.step_spans.chunks(4)).map(|(kind, n)| match kind {
        0 => format!(r#"["prepend",[{},{}]]"#, n[0], n[1]),
        1 => format!(r#"["replace",[{},{}],[{},{}]]"#, n[0], n[1], n[2], n[3]),
        2 => format!(r#"["collapse",[{},{}]]"#, n[0], n[1]),
        _ => format!(r#"["strip",{},{}]"#, n[0], n[1]),
    });
    let metaspace = match t.metaspace {
        0 => "null".to_string(),
        scheme => format!(r#"["{}",{}]"#, ["never", "always", "first"][scheme as usize - 1], t.split),
    };
    format!(
        concat!(
            r#"{{"piece_bytes":"{}","piece_offsets":{},"lookup":{},"fallback":{{{}}},"left":{},"right":{},"result":{},"rank":{},"#,
            r#""first":{},"second":{},"step_bytes":"{}","steps":{},"metaspace":{}}}"#
        ),
        hex(&t.piece_bytes),
        list(&t.piece_offsets),
        list(&t.lookup),
        fallback.join(","),
        list(&t.left),
        list(&t.right),
        list(&t.result),
        list(&t.rank),
        tokens(&t.first),
        tokens(&t.second),
        hex(&t.step_bytes),
        list(steps),
        metaspace
    )
}

/// What is asked, without an answer.
pub fn ask(ask: &Ask) -> String {
    match ask {
        Ask::Encode { text, continuation } => format!(r#""op":"encode","text":"{}","continuation":{continuation}"#, hex(text.as_bytes())),
        Ask::Fragments { text, target } | Ask::Joined { text, target } => {
            format!(r#""op":"fragments","text":"{}","target":{target}"#, hex(text.as_bytes()))
        }
        Ask::Normalise { text, first } => format!(r#""op":"normalise","text":"{}","first":{first}"#, hex(text.as_bytes())),
        Ask::Decode { ids } => format!(r#""op":"decode","ids":{}"#, list(ids)),
        Ask::Damaged { bytes } => format!(r#""op":"encode","text":"{}","continuation":false"#, hex(bytes)),
    }
}

pub fn answer(answer: &Answer) -> String {
    list([answer.number as usize, answer.place, answer.written, answer.drops, answer.skips])
}
