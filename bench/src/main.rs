//! Times the library, the published Rust, a plain Rust and SentencePiece on the same model and text. bench/run builds and starts it.

#![feature(portable_simd)]
#![allow(dead_code, unused_imports)]

mod bpe;
mod lengths;
mod library;
mod model;
mod peer;
mod plain;
mod pretokenize;
mod token;

use bpe::sentencepiece::EncodeState;
use library::{Library, Prepared};
use model::{Model, Row, Scheme, Step, Tables, Token};
use peer::Peer;
use plain::Plain;
use std::hint::black_box;
use std::io::{IsTerminal, Write};
use std::time::Duration;
use token::TokenId;

const MARK: &str = "\u{2581}";
const LINE: usize = 60;
/// A measurement takes at least so long: short calls are repeated.
const LEAST: Duration = Duration::from_millis(4);
/// What takes longer is measured three times at most.
const SLOW: Duration = Duration::from_secs(2);

unsafe extern "C" {
    fn clock_gettime(clock: i32, time: *mut [i64; 2]) -> i32;
}

/// The processor time that this process has taken with all its threads: other programs disturb it less than the time of day.
fn taken() -> Duration {
    const PROCESS: i32 = 2;
    let mut time = [0; 2];
    assert_eq!(unsafe { clock_gettime(PROCESS, &mut time) }, 0);
    Duration::new(time[0] as u64, time[1] as u32)
}

/// Something to time: a row of the table, one of its sides, how many bytes a call works on.
struct Timed<'a> {
    row: String,
    side: &'static str,
    bytes: usize,
    call: Box<dyn FnMut() + 'a>,
    calls: u32,
    rounds: usize,
    times: Vec<f64>,
}

impl Timed<'_> {
    /// One call to find out how many make a measurement.
    fn try_out(&mut self, rounds: usize) {
        let start = taken();
        (self.call)();
        let time = taken() - start;
        self.calls = (LEAST.as_nanos() / time.as_nanos().max(1)).clamp(1, 100_000) as u32;
        self.rounds = if time > SLOW { rounds.min(3) } else { rounds };
    }

    fn measure(&mut self) {
        let start = taken();
        for _ in 0..self.calls {
            (self.call)();
        }
        self.times.push((taken() - start).as_nanos() as f64 / self.calls as f64);
    }
}

/// Where the sides of a row are added.
struct Rows<'t, 'a> {
    all: &'t mut Vec<Timed<'a>>,
    row: &'t str,
    bytes: usize,
}

impl<'a> Rows<'_, 'a> {
    fn side(&mut self, side: &'static str, call: impl FnMut() + 'a) {
        let (row, call) = (self.row.to_string(), Box::new(call));
        self.all.push(Timed { row, side, bytes: self.bytes, call, calls: 1, rounds: 1, times: Vec::new() });
    }
}

/// A model of bench/trained.py's lines.
fn read_model(path: &str) -> Model {
    let lines = std::fs::read_to_string(path).expect("the model's file");
    let (pieces, rows) = lines.split_once("\n\n").expect("an empty line between pieces and rows");
    let mut model = Model { last_of_equals: true, ..Model::default() };
    for line in pieces.lines() {
        let (hex, byte) = line.split_once(' ').expect("a piece and what it is");
        let piece: Vec<u8> = (0..hex.len()).step_by(2).map(|at| u8::from_str_radix(&hex[at..at + 2], 16).expect("hex")).collect();
        if byte == "byte" {
            model.fallback.push((piece[0], model.pieces.len() as u32));
        }
        model.pieces.push(piece);
    }
    for line in rows.lines() {
        let n: Vec<u32> = line.split(' ').map(|number| number.parse().expect("a number")).collect();
        model.rows.push(Row { left: n[0], right: n[1], result: n[2], rank: n[3] });
    }
    model
}

/// The text in lines of at most `LINE` bytes, cut at spaces where there are some.
fn lines(text: &str) -> Vec<&str> {
    let mut lines = Vec::new();
    let mut rest = text;
    while !rest.is_empty() {
        let most = (0..=LINE.min(rest.len())).rev().find(|&at| rest.is_char_boundary(at)).unwrap();
        let end = if most == rest.len() { most } else { rest[..most].rfind([' ', '\n']).map_or(most, |at| at + 1) };
        let (line, next) = rest.split_at(end);
        lines.push(line.trim_end());
        rest = next;
    }
    lines
}

fn front(text: &str, length: usize) -> &str {
    let end = (0..=length.min(text.len())).rev().find(|&at| text.is_char_boundary(at)).unwrap();
    &text[..end]
}

/// A model in all forms.
struct Forms<'a> {
    library: &'a Library,
    tables: Tables,
    rows: Prepared,
    rust: bpe::sentencepiece::SentencePieceBPE,
}

impl<'a> Forms<'a> {
    fn new(library: &'a Library, model: &Model) -> Forms<'a> {
        let tables = model.tables();
        let (answer, rows) = library.prepare(&tables);
        assert_eq!(answer.number, 0, "the model is refused");
        Forms { library, tables, rows, rust: model.rust(Some(512 << 20)) }
    }

    fn encode_into(&self, text: &[u8], out: &mut [u32], scratch: &mut [Vec<u8>; 2]) -> usize {
        let answer = self.library.encode_prepared(&self.tables, &self.rows, text, false, out, scratch);
        assert_eq!(answer.number, 0);
        answer.written
    }

    fn rust_encode(&self, state: &mut EncodeState, text: &str, out: &mut Vec<TokenId>) {
        out.clear();
        self.rust.encode_raw_with(state, text, out);
    }
}

/// The library tests that a text is UTF-8, so the Rust does too.
fn str_of(bytes: &[u8]) -> &str {
    std::str::from_utf8(black_box(bytes)).unwrap()
}

/// Buffers that are long enough for a text.
fn lent(text: &str) -> (Vec<u32>, [Vec<u8>; 2]) {
    let room = 3 * text.len() + 64;
    (vec![0; room], [vec![0; room], vec![0; room]])
}

/// The sides of one row that encodes one text. All give the same ids.
fn encode_row<'a>(all: &mut Vec<Timed<'a>>, row: &str, forms: &'a Forms, plain: &'a Plain, peer: Option<&'a Peer>, text: &'a str) {
    let (mut out, mut scratch) = lent(text);
    let written = forms.encode_into(text.as_bytes(), &mut out, &mut scratch);
    let ids = out[..written].to_vec();
    let mut theirs = Vec::new();
    forms.rust_encode(&mut EncodeState::new(), text, &mut theirs);
    assert!(theirs.iter().map(|id| id.0).eq(ids.iter().copied()), "{row}: the Rust's ids differ");
    let mut plains = Vec::new();
    plain.encode(text, &mut plains);
    assert!(plains == ids, "{row}: the plain Rust's ids differ");
    let mut add = Rows { all, row, bytes: text.len() };
    add.side("prepared", move || {
        forms.encode_into(black_box(text.as_bytes()), &mut out, &mut scratch);
    });
    add.side("Rust, fresh", move || {
        let mut ids = Vec::new();
        forms.rust_encode(&mut EncodeState::new(), str_of(text.as_bytes()), &mut ids);
        black_box(&ids);
    });
    let (mut state, mut warm) = (EncodeState::new(), Vec::new());
    add.side("Rust, warm", move || forms.rust_encode(&mut state, str_of(text.as_bytes()), &mut warm));
    add.side("plain Rust", move || plain.encode(black_box(text), &mut plains));
    if let Some(peer) = peer {
        if peer.encode(text.as_bytes()).iter().map(|&id| id as u32).ne(ids) {
            eprintln!("{row}: SentencePiece's ids differ");
        }
        add.side("SentencePiece", move || {
            black_box(peer.encode(black_box(text.as_bytes())));
        });
    }
}

fn lines_row<'a>(all: &mut Vec<Timed<'a>>, forms: &'a Forms, plain: &'a Plain, peer: Option<&'a Peer>, lines: &'a [&'a str]) {
    let mut add = Rows { all, row: "lines", bytes: lines.iter().map(|line| line.len()).sum() };
    let (mut out, mut scratch) = (vec![0; 3 * LINE + 3], [vec![], vec![]]);
    add.side("prepared", move || {
        for line in lines {
            forms.encode_into(line.as_bytes(), &mut out[..3 * line.len() + 3], &mut scratch);
        }
    });
    add.side("Rust, fresh", move || {
        let (mut state, mut ids) = (EncodeState::new(), Vec::new());
        for line in lines {
            forms.rust_encode(&mut state, line, &mut ids);
        }
    });
    let (mut state, mut ids) = (EncodeState::new(), Vec::new());
    add.side("Rust, warm", move || {
        for line in lines {
            forms.rust_encode(&mut state, line, &mut ids);
        }
    });
    let mut ids = Vec::new();
    add.side("plain Rust", move || {
        for line in lines {
            plain.encode(line, &mut ids);
        }
    });
    if let Some(peer) = peer {
        add.side("SentencePiece", move || {
            for line in lines {
                black_box(peer.encode(line.as_bytes()));
            }
        });
    }
}

fn fragments_row<'a>(all: &mut Vec<Timed<'a>>, row: &str, forms: &'a Forms, text: &'a str) {
    const TARGET: usize = 4096;
    let mut add = Rows { all, row, bytes: text.len() };
    let mut out = vec![0; text.len()];
    add.side("prepared", move || {
        assert_eq!(forms.library.fragments_prepared(&forms.tables, &forms.rows, black_box(text.as_bytes()), TARGET, &mut out).number, 0);
    });
    add.side("Rust, fresh", move || {
        black_box(forms.rust.safe_fragment_ranges(str_of(text.as_bytes()), TARGET));
    });
}

fn decode_row<'a>(all: &mut Vec<Timed<'a>>, forms: &'a Forms, plain: &'a Plain, peer: Option<&'a Peer>, text: &'a str) {
    let (mut cells, mut scratch) = lent(text);
    let written = forms.encode_into(text.as_bytes(), &mut cells, &mut scratch);
    let ids: Vec<u32> = cells[..written].to_vec();
    if forms.library.has_decode() {
        // The room that always suffices, as include/varitmol.h works it out, and the text's length.
        let offsets = &forms.tables.piece_offsets;
        let lengths = ids.iter().map(|&id| offsets[id as usize + 1] - offsets[id as usize]);
        let room: u32 = lengths.map(|length| if length == 1 { 3 } else { length }).sum();
        for (row, room) in [("decode", room as usize), ("decode, no room to spare", text.len())] {
            let (ids, mut out) = (ids.clone(), vec![0; room]);
            Rows { all, row, bytes: text.len() }.side("prepared", move || {
                let answer = forms.library.decode(&forms.tables, true, black_box(&ids), &mut out);
                assert_eq!((answer.number, answer.written), (0, text.len()));
            });
        }
    } else {
        eprintln!("the library has no varitmol_decode: it is left out");
    }
    let mut add = Rows { all, row: "decode", bytes: text.len() };
    let tokens: Vec<TokenId> = ids.iter().map(|&id| TokenId(id)).collect();
    assert!(forms.rust.decode(&tokens) == text.as_bytes(), "the Rust's decode does not give the text");
    add.side("Rust, fresh", move || {
        black_box(forms.rust.decode(black_box(&tokens)));
    });
    let (given, mut out) = (ids.clone(), Vec::new());
    plain.decode(&given, &mut out);
    assert!(out == text.as_bytes(), "the plain Rust's decode does not give the text");
    add.side("plain Rust", move || plain.decode(black_box(&given), &mut out));
    if let Some(peer) = peer {
        add.side("SentencePiece", move || {
            black_box(peer.decode(black_box(&ids)));
        });
    }
}

fn normalise_row<'a>(all: &mut Vec<Timed<'a>>, row: &str, forms: &'a Forms, text: &'a str) {
    let mut add = Rows { all, row, bytes: text.len() };
    let (_, mut scratch) = lent(text);
    let mut out = vec![0; 3 * text.len() + 64];
    add.side("prepared", move || {
        let answer = forms.library.normalise(&forms.tables, true, black_box(text.as_bytes()), true, &mut out, &mut scratch);
        assert_eq!(answer.number, 0);
    });
    add.side("Rust, fresh", move || {
        black_box(forms.rust.normalize(str_of(text.as_bytes()), true));
    });
}

fn main() {
    let arguments: Vec<String> = std::env::args().skip(1).collect();
    let [library, rows, text, rounds, rest @ ..] = arguments.as_slice() else {
        eprintln!("bench/run starts this program with: LIBRARY ROWS TEXT ROUNDS [PEER MODEL]");
        std::process::exit(2)
    };
    let library = Library::load(library).unwrap_or_else(|why| {
        eprintln!("{why}");
        std::process::exit(2)
    });
    let peer = if let [peer, model] = rest { Some(Peer::load(peer, model).expect("the peer")) } else { None };
    let peer = peer.as_ref();
    let text = std::fs::read_to_string(text).expect("a text");
    let rounds: usize = rounds.parse().expect("a number of rounds");
    let replace = || Step::Replace(" ".into(), MARK.into());
    let mut base = read_model(rows);
    base.steps = vec![Step::Prepend(MARK.into()), replace()];
    let off = Model { steps: vec![Step::Strip(true, true), replace()], metaspace: Some((Scheme::Always, false)), ..base.clone() };
    let mut whole = base.clone();
    whole.pieces.push("a▁b▁".as_bytes().to_vec());
    let tokens = (0..100).map(|n| Token { content: format!("<{n}>"), id: 40_000 + n, lstrip: n % 2 == 0, rstrip: n % 3 == 0 }).collect();
    let tokened = Model { first: tokens, ..base.clone() };
    let steps: [(&str, Vec<Step>, Option<(Scheme, bool)>); 6] = [
        ("Prepend", vec![Step::Prepend(MARK.into())], None),
        ("Replace", vec![replace()], None),
        ("Replace of nothing", vec![Step::Replace("".into(), "-".into())], None),
        ("CollapseSpaces", vec![Step::Collapse(" ".into())], None),
        ("Strip", vec![Step::Strip(true, true)], None),
        ("Metaspace", vec![], Some((Scheme::Always, false))),
    ];
    let small = Model { pieces: vec![b"a".to_vec()], ..Model::default() };
    let forms = Forms::new(&library, &base);
    let (off_forms, whole_forms, tokened_forms) =
        (Forms::new(&library, &off), Forms::new(&library, &whole), Forms::new(&library, &tokened));
    let step_forms = steps.map(|(name, steps, metaspace)| (name, Forms::new(&library, &Model { steps, metaspace, ..small.clone() })));
    let plain = Plain::new(&base, &forms.tables);
    let (off_plain, whole_plain) = (Plain::new(&off, &off_forms.tables), Plain::new(&whole, &whole_forms.tables));

    let lines = lines(&text);
    let mut all: Vec<Timed> = Vec::new();
    let (lib, tables, bytes) = (&library, &forms.tables, text.as_bytes());
    Rows { all: &mut all, row: "check", bytes: 0 }.side("Varitmol", move || drop(black_box(lib.check(black_box(tables)))));
    let mut rows = library.prepare(tables).1;
    let prepare = move || drop(black_box(lib.prepare_into(black_box(tables), &mut rows)));
    Rows { all: &mut all, row: "check and prepare", bytes: 0 }.side("Varitmol", prepare);
    let (mut out, mut scratch) = lent(&text);
    let encode = move || assert_eq!(lib.encode(tables, black_box(bytes), false, &mut out, &mut scratch).number, 0);
    Rows { all: &mut all, row: "encode, 1 MiB", bytes: bytes.len() }.side("Varitmol", encode);
    encode_row(&mut all, "encode, 1 MiB", &forms, &plain, peer, &text);
    lines_row(&mut all, &forms, &plain, peer, &lines);
    encode_row(&mut all, "off the raw path, 1 MiB", &off_forms, &off_plain, None, &text);
    for (size, bytes) in [("1 KiB", 1 << 10), ("4 KiB", 4 << 10), ("16 KiB", 16 << 10)] {
        encode_row(&mut all, &format!("one unit, {size}"), &whole_forms, &whole_plain, None, front(&text, bytes));
    }
    fragments_row(&mut all, "fragments, 1 MiB", &forms, &text);
    fragments_row(&mut all, "fragments with 100 tokens, 1 MiB", &tokened_forms, &text);
    decode_row(&mut all, &forms, &plain, peer, &text);
    for (size, bytes) in [("16 KiB", 16 << 10), ("1 MiB", text.len())] {
        for (name, forms) in &step_forms {
            normalise_row(&mut all, &format!("normalise: {name}, {size}"), forms, front(&text, bytes));
        }
    }
    for (size, bytes) in [("1 KiB", 1 << 10), ("16 KiB", 16 << 10), ("256 KiB", 256 << 10)] {
        encode_row(&mut all, &format!("growth, {size}"), &forms, &plain, peer, front(&text, bytes));
    }

    all.iter_mut().for_each(|timed| timed.try_out(rounds));
    let bar = std::io::stderr().is_terminal();
    for round in 0..rounds {
        for (number, timed) in all.iter_mut().enumerate() {
            if bar {
                eprint!("\rround {} of {rounds}, {:<40} {number:3}", round + 1, timed.row);
            }
            if round < timed.rounds {
                timed.measure();
            }
        }
    }
    if bar {
        eprint!("\r{:80}\r", "");
    }
    let mut out = std::io::stdout().lock();
    for timed in &mut all {
        timed.times.sort_by(f64::total_cmp);
        let (best, median) = (timed.times[0], timed.times[timed.times.len() / 2]);
        writeln!(out, "{}\t{}\t{}\t{best:.0}\t{median:.0}", timed.row, timed.side, timed.bytes).unwrap();
    }
}
