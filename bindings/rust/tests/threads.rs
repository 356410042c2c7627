//! One model for many threads: the fragments of a text, encoded apart, give the ids of the whole.

mod common;

use common::u;
use varitmol::{Model, Token, Tokens};

const WORKERS: usize = 4;

#[test]
fn fragments_encoded_by_four_threads() {
    let tokens = Tokens::from_tokens(&[
        Token { content: "<n>", id: 50, lstrip: true, rstrip: false },
        Token { content: "b.", id: 51, lstrip: false, rstrip: false },
    ]);
    let model = &Model::new(u().with_first(tokens)).unwrap();
    let text: String = ["ab a", " b a b b", "é <n>a.b", "  c b", ".a <n>  ▁ab", " b."].iter().cycle().take(3000).copied().collect();
    let whole = model.encode(&text).unwrap();
    let ranges = model.fragments(&text, text.len() / (3 * WORKERS)).unwrap();
    assert!(ranges.len() > 2 * WORKERS);

    let encoded = std::thread::scope(|scope| {
        let workers: Vec<_> = (0..WORKERS)
            .map(|worker| {
                let (ranges, text) = (&ranges, &text);
                scope.spawn(move || {
                    let own = ranges.iter().enumerate().skip(worker).step_by(WORKERS);
                    own.map(|(place, range)| {
                        let part = &text[range.clone()];
                        (place, if place == 0 { model.encode(part) } else { model.encode_continuation(part) })
                    })
                    .collect::<Vec<_>>()
                })
            })
            .collect();
        let mut encoded: Vec<_> = workers.into_iter().flat_map(|worker| worker.join().unwrap()).collect();
        encoded.sort_by_key(|(place, _)| *place);
        encoded
    });

    let (mut ids, mut drops) = (Vec::new(), 0);
    for (_, part) in encoded {
        let (part_ids, part_drops) = part.unwrap().with_drops();
        ids.extend(part_ids);
        drops += part_drops;
    }
    assert!(drops > 0);
    assert_eq!((ids, drops), whole.with_drops());
}
