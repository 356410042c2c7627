//! Runs the published Rust and the library side by side. oracle/run builds and starts it.

#![feature(portable_simd)]
#![allow(dead_code, unused_imports)]

mod bpe;
mod compare;
mod dice;
mod json;
mod large;
mod lengths;
mod library;
mod made;
mod model;
mod pretokenize;
mod sample;
mod shrink;
mod token;
mod toys;

use compare::{Ask, NAMES, Sides, Subject};
use dice::Dice;
use library::Library;
use model::Model;
use shrink::Case;
use std::io::{IsTerminal, Write};
use std::time::Instant;

/// How many questions a random model gets.
const QUESTIONS: usize = 24;

/// A bar on a terminal, nothing elsewhere.
struct Bar {
    shown: bool,
    start: Instant,
    last: usize,
}

impl Bar {
    fn show(&mut self, done: usize, of: usize, what: &str) {
        const WIDTH: usize = 40;
        let part = (done * 1000 / of.max(1)).min(1000);
        if self.shown && (part != self.last || done == 0) {
            self.last = part;
            let full = part * WIDTH / 1000;
            eprint!(
                "\r[{}{}] {:5.1}%  {:.0} s  {what:<48}",
                "#".repeat(full),
                ".".repeat(WIDTH - full),
                part as f64 / 10.0,
                self.start.elapsed().as_secs_f64()
            );
        }
    }

    fn clear(&self) {
        if self.shown {
            eprint!("\r{:110}\r", "");
        }
    }
}

struct Run {
    library: Library,
    seed: u64,
    count: usize,
    done: [usize; NAMES.len()],
    bar: Bar,
}

fn question(dice: &mut Dice, model: &Model) -> Ask {
    let text = made::text(dice, model);
    let target = match dice.below(6) {
        0 => 0,
        1 => usize::MAX,
        _ => dice.below(text.len() + 2),
    };
    match dice.below(12) {
        0..=3 => Ask::Encode { text, continuation: false },
        4 | 5 => Ask::Encode { text, continuation: true },
        6 | 7 => Ask::Fragments { text, target },
        8 => Ask::Joined { text, target },
        9 => Ask::Normalise { text, first: dice.flag() },
        10 => Ask::Decode { ids: made::ids(dice, model) },
        _ => Ask::Damaged { bytes: made::damaged(dice, &text) },
    }
}

impl Run {
    fn compared(&self) -> usize {
        self.done.iter().sum()
    }

    /// Asks one model all questions; the first difference ends the run.
    fn ask_all(&mut self, model: &Model, budget: Option<usize>, what: &str, asks: impl IntoIterator<Item = Ask>) {
        let sides = Sides::new(&self.library, model, budget).unwrap_or_else(|number| {
            self.bar.clear();
            eprintln!("{what}: the library refuses a model by {number}: {}", json::model(model));
            std::process::exit(1)
        });
        let mut subject = Subject::new(&self.library, model, &sides);
        for ask in asks {
            match subject.compare(&ask) {
                Ok(calls) => self.done[ask.kind()] += calls,
                Err(_) => {
                    self.bar.clear();
                    self.show(Case { model: model.clone(), ask, budget }, what);
                    std::process::exit(1)
                }
            }
        }
        self.bar.show(self.done.iter().sum(), self.count, what);
    }

    fn show(&self, case: Case, what: &str) {
        println!("a difference ({what}, seed {}), made smaller:", self.seed);
        let whole = case.clone();
        let case = if case.difference(&self.library).is_some() { shrink::shrink(&self.library, case) } else { case };
        match case.difference(&self.library) {
            Some(difference) => println!("{}\n  Rust    {}\n  library {}", difference.call, difference.rust, difference.library),
            None => println!("it shows only after other texts with the same model, by what the Rust's cache holds then"),
        }
        println!("{{\"model\":{},\"calls\":[{{{}}}]}}", json::model(&case.model), json::ask(&case.ask));
        println!("it was found with {} pieces, {} rows", whole.model.pieces.len(), whole.model.rows.len());
    }

    fn large(&mut self) {
        for (name, model, asks) in large::cases(self.seed) {
            self.bar.last = usize::MAX;
            self.bar.show(self.compared(), self.count, name);
            // The least budget there is, so that the cache is emptied on the way.
            self.ask_all(&model, Some(0), name, asks);
        }
    }

    /// All texts of so many letters that at most half of the count is spent on them.
    fn toys(&mut self) -> u32 {
        let models = toys::models();
        let texts = |length: u32| (0..=length).map(|n| toys::LETTERS.len().pow(n)).sum::<usize>();
        let calls_a_text = 10;
        let longest = (1..8).rev().find(|&n| texts(n) * models.len() * calls_a_text * 2 <= self.count).unwrap_or(1);
        for model in &models {
            let asks = (0..=longest).flat_map(toys::texts).flat_map(|text| {
                let target = text.len() / 3;
                [
                    Ask::Encode { text: text.clone(), continuation: false },
                    Ask::Encode { text: text.clone(), continuation: true },
                    Ask::Fragments { text: text.clone(), target },
                    Ask::Joined { text: text.clone(), target },
                    Ask::Normalise { text, first: true },
                ]
            });
            let pieces = model.pieces.len() as u32 + 1;
            let ids = (0..pieces.pow(2)).map(|n| Ask::Decode { ids: vec![n / pieces, n % pieces] });
            self.ask_all(model, None, "all short texts", asks.chain(ids));
        }
        longest
    }

    fn random(&mut self) -> u64 {
        let mut number = 0;
        while self.compared() < self.count {
            let dice = &mut Dice::new(self.seed, number);
            let model = made::model(dice);
            let budget = *dice.pick(&[None, Some(0), Some(usize::MAX)]);
            let asks: Vec<Ask> = (0..QUESTIONS).map(|_| question(dice, &model)).collect();
            self.ask_all(&model, budget, &format!("model {number}"), asks);
            number += 1;
        }
        number
    }
}

fn thousands(number: usize) -> String {
    let digits = number.to_string();
    let groups: Vec<&str> = digits.as_bytes().rchunks(3).rev().map(|group| std::str::from_utf8(group).unwrap()).collect();
    groups.join(",")
}

fn main() {
    let arguments: Vec<String> = std::env::args().skip(1).collect();
    let [path, count, seed, rest @ ..] = arguments.as_slice() else {
        eprintln!("oracle/run starts this program with: LIBRARY COUNT SEED [SAMPLE]");
        std::process::exit(2)
    };
    let number = |text: &String| text.parse().unwrap_or_else(|_| panic!("{text} is no number"));
    let library = Library::load(path).unwrap_or_else(|why| {
        eprintln!("{why}");
        std::process::exit(2)
    });
    let (count, seed): (usize, u64) = (number(count) as usize, number(seed));
    if let [file, ..] = rest {
        match sample::write(&library, file, count, seed) {
            Ok((models, calls)) => println!("{file}: {calls} calls on {models} models, seed {seed}"),
            Err(why) => {
                eprintln!("{file}: {why}");
                std::process::exit(2)
            }
        }
        return;
    }
    println!("seed {seed}");
    if !library.has_decode() {
        println!("the library has no varitmol_decode: decode is left out");
    }
    std::panic::set_hook(Box::new(|_| ()));
    let bar = Bar { shown: std::io::stderr().is_terminal(), start: Instant::now(), last: usize::MAX };
    let mut run = Run { library, seed, count, done: [0; NAMES.len()], bar };
    let letters = run.toys();
    let models = run.random();
    run.large();
    run.bar.clear();
    for (name, done) in NAMES.iter().zip(run.done) {
        println!("{name:<18} {:>12}", thousands(done));
    }
    println!(
        "all texts of up to {letters} letters of {} on {} toy models, {} random models, 6 large ones; {:.0} s",
        toys::LETTERS.len(),
        toys::models().len(),
        thousands(models as usize),
        run.bar.start.elapsed().as_secs_f64()
    );
    println!("{} comparisons, 0 differ", thousands(run.compared()));
    std::io::stdout().flush().unwrap();
}
