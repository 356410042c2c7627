//! How long a buffer has to be so that it always suffices. `include/varitmol.h` has the same bounds.

use crate::tables::{Step, Tables};

/// The most bytes that the steps make of some sections with that many bytes in all.
fn stepped(tables: &Tables<'_>, bytes: usize, sections: usize) -> usize {
    tables.steps.iter().fold(bytes, |bytes, step| {
        let (times, growth) = match *step {
            Step::Prepend(content) => (sections, content.len),
            Step::Replace { pattern, content } => {
                // an empty pattern stands in front of every character and at the end of each section
                let times = bytes.checked_div(pattern.len as usize).unwrap_or(bytes.saturating_add(sections));
                (times, content.len.saturating_sub(pattern.len))
            }
            // a run is two bytes at least, and between two runs stands another byte
            Step::CollapseSpaces(content) => (bytes.saturating_add(sections) / 3, content.len.saturating_sub(2)),
            Step::Strip { .. } => (0, 0),
        };
        bytes.saturating_add(times.saturating_mul(growth as usize))
    })
}

/// Metaspace makes three bytes of one at most, and puts three in front.
pub(crate) fn normalise(tables: &Tables<'_>, text_len: usize) -> usize {
    let bytes = stepped(tables, text_len, 1);
    if tables.metaspace.is_some() { bytes.saturating_mul(3).saturating_add(3) } else { bytes }
}

/// A character gives an id or at most one a byte. Straight from the text a space, and a mark in front of a section, gives three at most, so n bytes
/// with t tokens give at most 3 (n - t) + 3 (t + 1) + t. Otherwise what the steps make of the sections counts, and metaspace and the second
/// list's tokens do to it what was said of spaces and tokens.
pub(crate) fn encode(tables: &Tables<'_>, text_len: usize) -> usize {
    let raw = text_len.saturating_mul(4).saturating_add(3);
    let (tokens, sections) = if tables.first.ids.is_empty() { (0, 1) } else { (text_len, text_len / 2 + 1) };
    let bytes = stepped(tables, text_len, sections);
    let cells = if tables.metaspace.is_some() { bytes.saturating_mul(4).saturating_add(sections.saturating_mul(3)) } else { bytes };
    cells.saturating_add(tokens).max(raw)
}

/// Two numbers a range, and each range but the last has `target` bytes or more.
pub(crate) fn fragments(text_len: usize, target: usize) -> usize {
    (text_len / target.max(1)).saturating_add(1).saturating_mul(2)
}

/// A byte that is a piece by itself gives three at most, where it belongs to no character; other pieces are valid UTF-8 and give no more than
/// they have.
pub(crate) fn decode(tables: &Tables<'_>, ids: &[u32]) -> usize {
    let piece_len = |&id: &u32| match tables.piece_offsets.get(id as usize..)? {
        [from, to, ..] => Some((to - from) as usize),
        _ => None,
    };
    ids.iter().filter_map(piece_len).map(|len| if len == 1 { 3 } else { len }).sum()
}
