//! Other tables for a program without types: entries that no binder needs are left out, entries that nothing needs are added.
use super::layout::Draft;
use crate::random::Random;
use crate::reference::format::{kind, Record};

/// Leaves out all entries but the first, the chosen ones (by their places, from 0 on), those that binders name, and the parts of any of these.
pub fn cut(draft: &mut Draft, mut chosen: impl FnMut(usize) -> bool) {
    let mut needed: Vec<bool> = (0..=draft.types.len()).map(|number| number <= 1 || chosen(number - 1)).collect();
    for field in draft.records.iter_mut().flat_map(type_fields) {
        needed[usize::from(*field)] = true;
    }
    for (number, &[_, a, b]) in draft.types.iter().enumerate().rev().map(|(place, entry)| (place + 1, entry)) {
        if needed[number] {
            needed[usize::from(a)] = true;
            needed[usize::from(b)] = true;
        }
    }
    keep(draft, &needed);
}

/// Leaves out the entries that are not needed, by their numbers, and renumbers the others. Number 0 stays.
fn keep(draft: &mut Draft, needed: &[bool]) {
    let mut numbers = vec![0; needed.len()];
    let mut types = Vec::new();
    for (place, &[form, a, b]) in draft.types.iter().enumerate().filter(|(place, _)| needed[place + 1]) {
        types.push([form, numbers[usize::from(a)], numbers[usize::from(b)]]);
        numbers[place + 1] = types.len() as u16;
    }
    draft.types = types;
    for field in draft.records.iter_mut().flat_map(type_fields) {
        *field = numbers[usize::from(*field)];
    }
}

/// The fields of a record, its type apart, that name types.
fn type_fields(record: &mut Record) -> Vec<&mut u16> {
    match record.kind {
        kind::FUNCTION | kind::MATCH_LIFT..=kind::MATCH_FIX => vec![&mut record.a],
        kind::MATCH_APPLICATION => vec![&mut record.a, &mut record.b],
        _ => Vec::new(),
    }
}

/// Adds random entries until there are so many: functions, and where they are wanted codes too.
pub fn fill(draft: &mut Draft, count: usize, codes: bool, random: &mut Random) {
    while draft.types.len() < count {
        let [a, b] = [(); 2].map(|()| random.between(1, draft.types.len()) as u16);
        let entry = if codes && random.percent(30) { [3, a, 0] } else { [2, a, b] };
        if !draft.types.contains(&entry) {
            draft.types.push(entry);
        }
    }
}
