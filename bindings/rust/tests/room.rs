//! Buffers as long as the room functions say are never too short, and what is grown for the caller gives the same.

use varitmol::{Metaspace, Model, Scheme, Step, Tables, Token, Tokens};

const ALPHABET: [&str; 10] = [" ", " ", "▁", "a", "b", ".", "<", "é", "\u{a0}", "😀"];

/// Numbers that look random and are the same in every run.
struct Dice(u64);

impl Dice {
    fn below(&mut self, most: usize) -> usize {
        self.0 = self.0.wrapping_mul(6_364_136_223_846_793_005).wrapping_add(1_442_695_040_888_963_407);
        (self.0 >> 33) as usize % most
    }

    fn string(&mut self, most: usize) -> String {
        (0..self.below(most + 1)).map(|_| ALPHABET[self.below(ALPHABET.len())]).collect()
    }

    fn tokens(&mut self, most: usize) -> Tokens<'static> {
        let contents: Vec<String> = (0..self.below(most + 1)).map(|_| self.string(2)).filter(|content| !content.is_empty()).collect();
        let tokens: Vec<Token<'_>> =
            contents.iter().map(|content| Token { content, id: 1000, lstrip: self.below(2) == 0, rstrip: self.below(2) == 0 }).collect();
        Tokens::from_tokens(&tokens)
    }

    fn step(&mut self, tables: Tables<'static>) -> Tables<'static> {
        match self.below(5) {
            0 => tables.with_prepend(&self.string(3)),
            1 => tables.with_replace(&self.string(1), &self.string(3)),
            2 => tables.with_replace(" ", "▁"),
            3 => tables.with_collapse_spaces(&self.string(2)),
            _ => tables.with_step(Step::Strip { left: self.below(2) == 0, right: self.below(2) == 0 }),
        }
    }

    /// Every byte is a piece to fall back on; only some models have one for the mark.
    fn model(&mut self) -> Model<'static> {
        let bytes: Vec<Vec<u8>> = (0..=255).map(|byte| vec![byte]).collect();
        let words = ["▁", "é", "ab"].map(|word| word.as_bytes().to_vec());
        let pieces: Vec<_> = bytes.into_iter().chain(words.into_iter().skip(self.below(2))).collect();
        let mut tables = Tables::from_pieces(&pieces).with_fallback((0..=255).map(|byte| (byte, byte.into()))).with_first(self.tokens(2));
        for _ in 0..self.below(4) {
            tables = self.step(tables);
        }
        if self.below(4) == 0 {
            tables = tables.with_second(self.tokens(2));
        }
        if self.below(4) > 0 {
            let scheme = [Scheme::Never, Scheme::Always, Scheme::First][self.below(3)];
            tables = tables.with_metaspace(Metaspace { scheme, split: self.below(2) == 0 });
        }
        Model::new(tables).unwrap()
    }
}

#[test]
fn always_suffices() {
    let mut dice = Dice(1);
    let mut raw_paths = 0;
    for _ in 0..3000 {
        let model = dice.model();
        let text = dice.string(24);
        let mut ids = vec![9; model.encode_room(text.len())];
        let mut scratch = [0, 1].map(|_| vec![5; model.scratch_room(text.len())]);
        let [one, other] = &mut scratch;
        let (into, into_drops) = model.encode_into(&text, &mut ids, [one, other]).unwrap().with_drops();
        let (grown, drops) = model.encode(&text).unwrap().with_drops();
        assert_eq!((&*into, into_drops), (&*grown, drops));

        let mut bytes = vec![9; model.normalise_room(text.len())];
        let mut scratch = [0, 1].map(|_| vec![5; bytes.len()]);
        let [one, other] = &mut scratch;
        assert_eq!(model.normalise_into(&text, true, &mut bytes, [one, other]).unwrap(), model.normalise(&text, true).unwrap());

        let decoded = model.decode(&grown).unwrap();
        let mut bytes = vec![9; model.decode_room(&grown)];
        let (into, skips) = model.decode_into(&grown, &mut bytes).unwrap().with_skips();
        assert_eq!((into.to_string(), skips), decoded.with_skips());

        if model.has_raw_path() {
            raw_paths += 1;
            let target = dice.below(4);
            let mut numbers = vec![9; model.fragments_room(text.len(), target)];
            let into = model.fragments_into(&text, target, &mut numbers).unwrap();
            assert_eq!(into.len(), 2 * model.fragments(&text, target).unwrap().len());
            let (into, drops) = model.encode_continuation_into(&text, &mut ids).unwrap().with_drops();
            assert_eq!((into.to_vec(), drops), model.encode_continuation(&text).unwrap().with_drops());
        }
    }
    assert!(raw_paths > 300);
}
