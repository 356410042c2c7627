//! The library's algorithm in plain Rust: sorted tables, an index of where each left id's rows begin, no cache. It has no token lists.

use crate::model::{Model, NO_ID, Step, Tables};

const MARK: [u8; 3] = [0xE2, 0x96, 0x81];
const STARTERS: &[u8] = b".,\");:!?";
/// Units of up to so many ids keep the ranks of their pairs on the stack.
const SHORT: usize = 32;

pub struct Plain<'a> {
    tables: &'a Tables,
    steps: &'a [Step],
    metaspace: bool,
    /// No step but those of the raw path.
    raw: bool,
    /// The whole text is one unit.
    whole: bool,
    virtual_mark: bool,
    /// Where the rows of each left id begin.
    starts: Vec<u32>,
    /// The id of each one-byte character, or its fallback.
    bytes: [u32; 256],
    mark: Vec<u32>,
    adjacent: Vec<[u64; 4]>,
}

impl<'a> Plain<'a> {
    /// For the models that are measured here: no crossing pieces but in one that makes the whole text a unit.
    pub fn new(model: &'a Model, tables: &'a Tables) -> Plain<'a> {
        let piece = |id: u32| model.pieces[id as usize].as_slice();
        let count = model.pieces.len();
        let starts = (0..=count as u32).map(|id| tables.left.partition_point(|&left| left < id) as u32).collect();
        let mut bytes = [NO_ID; 256];
        bytes.copy_from_slice(&tables.fallback);
        let mut mark: Vec<u32> = MARK.iter().map(|&byte| tables.fallback[byte as usize]).filter(|&id| id != NO_ID).collect();
        for &id in &tables.lookup {
            match piece(id) {
                [byte] if *byte < 128 => bytes[*byte as usize] = id,
                text if *text == MARK => mark = vec![id],
                _ => {}
            }
        }
        let mut adjacent = vec![[0; 4]; 256];
        for text in &model.pieces {
            for pair in text.windows(2) {
                adjacent[pair[0] as usize][(pair[1] >> 6) as usize] |= 1 << (pair[1] & 63);
            }
        }
        let crosses = |text: &Vec<u8>| (1..text.len()).any(|at| text[at..].starts_with(&MARK) && !text[..at].ends_with(&MARK));
        let replace = Step::Replace(" ".into(), "\u{2581}".into());
        let whole = model.pieces.iter().any(crosses);
        let raw = !whole && (model.steps.is_empty() || model.steps == [Step::Prepend("\u{2581}".into()), replace]);
        Plain {
            tables,
            steps: &model.steps,
            metaspace: model.metaspace.is_some(),
            raw,
            whole,
            virtual_mark: raw,
            starts,
            bytes,
            mark,
            adjacent,
        }
    }

    fn row(&self, left: u32, right: u32) -> (u32, u32) {
        let t = self.tables;
        let (from, to) = (self.starts[left as usize] as usize, self.starts[left as usize + 1] as usize);
        match t.right[from..to].binary_search(&right) {
            Ok(at) => (t.result[from + at], t.rank[from + at]),
            Err(_) => (0, NO_ID),
        }
    }

    /// Merges in place and gives how many ids are left. No rank here is the highest.
    fn merge(&self, ids: &mut [u32]) -> usize {
        let mut count = ids.len();
        if count < 2 {
            return count;
        }
        let (mut short, mut long);
        let pairs: &mut [(u32, u32)] = if count <= SHORT {
            short = [(0, NO_ID); SHORT];
            &mut short
        } else {
            long = vec![(0, NO_ID); count];
            &mut long
        };
        for at in 0..count - 1 {
            pairs[at] = self.row(ids[at], ids[at + 1]);
        }
        loop {
            let (mut best, mut at) = (NO_ID, 0);
            for (place, &(_, rank)) in pairs[..count - 1].iter().enumerate() {
                if rank < best {
                    (best, at) = (rank, place);
                }
            }
            if best == NO_ID {
                return count;
            }
            ids[at] = pairs[at].0;
            ids.copy_within(at + 2..count, at + 1);
            pairs.copy_within((at + 2).min(count)..count, (at + 1).min(count - 1));
            count -= 1;
            if count < 2 {
                return count;
            }
            pairs[at] = if at + 1 < count { self.row(ids[at], ids[at + 1]) } else { (0, NO_ID) };
            if at > 0 {
                pairs[at - 1] = self.row(ids[at - 1], ids[at]);
            }
        }
    }

    fn spell(&self, unit: &[u8], out: &mut Vec<u32>) {
        let t = self.tables;
        let mut at = 0;
        while at < unit.len() {
            let byte = unit[at];
            let width = match byte {
                0..0x80 => 1,
                0x80..0xE0 => 2,
                0xE0..0xF0 => 3,
                _ => 4,
            };
            let char = &unit[at..at + width];
            at += width;
            if (self.raw && byte == b' ') || *char == MARK {
                out.extend_from_slice(&self.mark);
            } else if width == 1 {
                out.extend(Some(self.bytes[byte as usize]).filter(|&id| id != NO_ID));
            } else {
                let piece = |id: u32| &t.piece_bytes[t.piece_offsets[id as usize] as usize..t.piece_offsets[id as usize + 1] as usize];
                match t.lookup.binary_search_by(|&id| piece(id).cmp(char)) {
                    Ok(place) => out.push(t.lookup[place]),
                    Err(_) => out.extend(char.iter().map(|&byte| t.fallback[byte as usize]).filter(|&id| id != NO_ID)),
                }
            }
        }
    }

    /// Where the unit that begins at `start` ends.
    fn unit_end(&self, text: &[u8], start: usize) -> usize {
        if self.whole {
            return text.len();
        }
        let marked = |at: usize| (self.raw && text[at] == b' ') || text[at..].starts_with(&MARK);
        let after_mark = |at: usize| (self.raw && text[at - 1] == b' ') || text[..at].ends_with(&MARK);
        (start + 1..text.len())
            .find(|&at| {
                let byte = text[at];
                if byte == b' ' || byte == MARK[0] {
                    return marked(at) && !after_mark(at);
                }
                let before = if self.raw && text[at - 1] == b' ' { MARK[2] } else { text[at - 1] };
                STARTERS.contains(&byte) && self.adjacent[before as usize][(byte >> 6) as usize] & (1 << (byte & 63)) == 0
            })
            .unwrap_or(text.len())
    }

    fn normalised(&self, text: &str) -> String {
        let mut text = text.to_string();
        for step in self.steps {
            text = match step {
                Step::Prepend(content) if !text.is_empty() => content.clone() + &text,
                Step::Prepend(_) => text,
                Step::Replace(pattern, content) => text.replace(pattern.as_str(), content),
                Step::Strip(left, right) => {
                    let kept = if *left { text.trim_start() } else { &text };
                    (if *right { kept.trim_end() } else { kept }).to_string()
                }
                Step::Collapse(_) => unreachable!("no model that is measured has this step"),
            };
        }
        if self.metaspace {
            text = text.replace(' ', "\u{2581}");
            if !text.is_empty() && !text.starts_with('\u{2581}') {
                text.insert(0, '\u{2581}');
            }
        }
        text
    }

    pub fn encode(&self, text: &str, out: &mut Vec<u32>) {
        out.clear();
        let normal;
        let bytes = if self.raw {
            text.as_bytes()
        } else {
            normal = self.normalised(text);
            normal.as_bytes()
        };
        let mut start = 0;
        while start < bytes.len() {
            let end = self.unit_end(bytes, start);
            let from = out.len();
            if start == 0 && self.virtual_mark {
                out.extend_from_slice(&self.mark);
            }
            self.spell(&bytes[start..end], out);
            let left = self.merge(&mut out[from..]);
            out.truncate(from + left);
            start = end;
        }
    }

    /// For ids whose pieces join to valid text.
    pub fn decode(&self, ids: &[u32], out: &mut Vec<u8>) {
        let t = self.tables;
        let mut whole = Vec::with_capacity(8 * ids.len());
        for &id in ids.iter().filter(|&&id| (id as usize) + 1 < t.piece_offsets.len()) {
            whole.extend_from_slice(&t.piece_bytes[t.piece_offsets[id as usize] as usize..t.piece_offsets[id as usize + 1] as usize]);
        }
        out.clear();
        let mut at = 0;
        while at < whole.len() {
            if whole[at..].starts_with(&MARK) {
                out.push(b' ');
                at += 3;
            } else {
                out.push(whole[at]);
                at += 1;
            }
        }
        if out.first() == Some(&b' ') {
            out.remove(0);
        }
    }
}
