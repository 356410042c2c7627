//! Makes a case that differs smaller, as long as it still differs.

use crate::compare::{Ask, Difference, Sides, Subject};
use crate::library::Library;
use crate::model::{Model, Step};
use std::time::{Duration, Instant};

const PATIENCE: Duration = Duration::from_secs(60);

#[derive(Clone)]
pub struct Case {
    pub model: Model,
    pub ask: Ask,
    pub budget: Option<usize>,
}

impl Case {
    /// None where both sides say the same, or where the library refuses the model.
    pub fn difference(&self, library: &Library) -> Option<Difference> {
        let sides = Sides::new(library, &self.model, self.budget).ok()?;
        Subject::new(library, &self.model, &sides).compare(&self.ask).err()
    }

    /// The model without a piece: rows that name it go, higher ids go down.
    fn without_piece(&self, gone: u32) -> Case {
        let mut case = self.clone();
        let model = &mut case.model;
        let lower = |id: u32| if id > gone && (id as usize) < self.model.pieces.len() { id - 1 } else { id };
        model.pieces.remove(gone as usize);
        model.fallback.retain(|&(_, id)| id != gone);
        model.fallback.iter_mut().for_each(|(_, id)| *id = lower(*id));
        model.rows.retain(|r| ![r.left, r.right, r.result].contains(&gone));
        for row in &mut model.rows {
            (row.left, row.right, row.result) = (lower(row.left), lower(row.right), lower(row.result));
        }
        if let Ask::Decode { ids } = &mut case.ask {
            ids.retain(|&id| id != gone);
            ids.iter_mut().for_each(|id| *id = lower(*id));
        }
        case
    }
}

/// The case without some part of one of its lists, longest parts first.
fn without_parts<T: Clone>(length: usize, case: &Case, list: impl Fn(&mut Case) -> &mut Vec<T>) -> Vec<Case> {
    let mut smaller = Vec::new();
    let mut part = length.next_power_of_two();
    while part > 0 {
        for start in (0..length).step_by(part) {
            let mut next = case.clone();
            list(&mut next).drain(start..length.min(start + part));
            smaller.push(next);
        }
        part /= 2;
    }
    smaller
}

fn shorter(text: &str) -> Vec<String> {
    let letters: Vec<char> = text.chars().collect();
    let mut all = Vec::new();
    let mut part = letters.len().next_power_of_two();
    while part > 0 {
        for start in (0..letters.len()).step_by(part) {
            all.push(letters[..start].iter().chain(letters.iter().skip(start + part)).collect());
        }
        part /= 2;
    }
    all
}

fn smaller(case: &Case) -> Vec<Case> {
    let mut all = Vec::new();
    let ask = |ask: Ask| Case { ask, ..case.clone() };
    match &case.ask {
        Ask::Encode { text, continuation } => {
            all.extend(shorter(text).into_iter().map(|text| ask(Ask::Encode { text, continuation: *continuation })))
        }
        Ask::Fragments { text, target } => {
            all.extend(shorter(text).into_iter().map(|text| ask(Ask::Fragments { text, target: *target })));
            all.extend((*target > 0).then(|| ask(Ask::Fragments { text: text.clone(), target: target / 2 })));
        }
        Ask::Joined { text, target } => {
            all.extend(shorter(text).into_iter().map(|text| ask(Ask::Joined { text, target: *target })));
            all.extend((*target > 0).then(|| ask(Ask::Joined { text: text.clone(), target: target / 2 })));
        }
        Ask::Normalise { text, first } => all.extend(shorter(text).into_iter().map(|text| ask(Ask::Normalise { text, first: *first }))),
        Ask::Decode { ids } => all.extend(without_parts(ids.len(), case, |case| match &mut case.ask {
            Ask::Decode { ids } => ids,
            _ => unreachable!(),
        })),
        Ask::Damaged { bytes } => all.extend(without_parts(bytes.len(), case, |case| match &mut case.ask {
            Ask::Damaged { bytes } => bytes,
            _ => unreachable!(),
        })),
    }
    let model = &case.model;
    all.extend(without_parts(model.rows.len(), case, |case| &mut case.model.rows));
    all.extend(without_parts(model.first.len(), case, |case| &mut case.model.first));
    all.extend(without_parts(model.second.len(), case, |case| &mut case.model.second));
    all.extend(without_parts(model.steps.len(), case, |case| &mut case.model.steps));
    all.extend(without_parts(model.fallback.len(), case, |case| &mut case.model.fallback));
    if model.pieces.len() < 1000 {
        all.extend((0..model.pieces.len() as u32).rev().map(|id| case.without_piece(id)));
    }
    let change = |edit: &dyn Fn(&mut Model)| {
        let mut next = case.clone();
        edit(&mut next.model);
        next
    };
    if let Some((scheme, split)) = model.metaspace {
        all.push(change(&|m| m.metaspace = None));
        all.extend(split.then(|| change(&|m| m.metaspace = Some((scheme, false)))));
    }
    for second in [false, true] {
        let tokens = if second { &model.second } else { &model.first };
        for (at, token) in tokens.iter().enumerate() {
            let edit =
                |edit: &dyn Fn(&mut crate::model::Token)| change(&|m| edit(if second { &mut m.second[at] } else { &mut m.first[at] }));
            all.extend(shorter(&token.content).iter().map(|content| edit(&|t| t.content = content.clone())));
            all.extend(token.lstrip.then(|| edit(&|t| t.lstrip = false)));
            all.extend(token.rstrip.then(|| edit(&|t| t.rstrip = false)));
        }
    }
    for (at, step) in model.steps.iter().enumerate() {
        match step {
            Step::Prepend(content) => all.extend(shorter(content).iter().map(|s| change(&|m| m.steps[at] = Step::Prepend(s.clone())))),
            Step::Collapse(content) => all.extend(shorter(content).iter().map(|s| change(&|m| m.steps[at] = Step::Collapse(s.clone())))),
            Step::Replace(pattern, content) => {
                all.extend(shorter(pattern).iter().map(|s| change(&|m| m.steps[at] = Step::Replace(s.clone(), content.clone()))));
                all.extend(shorter(content).iter().map(|s| change(&|m| m.steps[at] = Step::Replace(pattern.clone(), s.clone()))));
            }
            Step::Strip(..) => {}
        }
    }
    all
}

/// The smallest case that was found in a minute.
pub fn shrink(library: &Library, mut case: Case) -> Case {
    let start = Instant::now();
    'again: loop {
        for next in smaller(&case) {
            if start.elapsed() > PATIENCE {
                return case;
            }
            if next.difference(library).is_some() {
                case = next;
                continue 'again;
            }
        }
        return case;
    }
}
