//! Damage to valid programs, each sort aimed at some refusals, and bytes that never were a program.
use super::layout::Draft;
use crate::random::Random;
use crate::reference::format::{child_count, kind, Record, HEADER_BYTES, RECORD_BYTES, TYPE_BYTES};

/// The weights of the sorts of changes to programs with types, and to those without.
pub const SORTS: [usize; 12] = [10, 8, 20, 30, 8, 25, 12, 12, 12, 15, 20, 25];
pub const UNTYPED_SORTS: [usize; 12] = [10, 8, 40, 8, 4, 30, 10, 10, 12, 10, 40, 18];

/// A program with one or several changes, of sorts by their weights.
pub fn damaged(mut draft: Draft, sorts: &[usize; 12], random: &mut Random) -> Vec<u8> {
    let sort = random.weighted(sorts);
    let changes = match random.weighted(&[60, 35, 5]) {
        0 => 1,
        1 => random.between(2, 5),
        _ => draft.records.len(),
    };
    for _ in 0..changes {
        let sort = if random.percent(80) { sort } else { random.weighted(sorts) };
        change(&mut draft, sort, random);
    }
    let mut bytes = draft.bytes();
    if sort == sorts.len() - 1 {
        change_bytes(&mut bytes, random);
    }
    bytes
}

/// Makes one change; the last sort is left to the bytes.
fn change(draft: &mut Draft, sort: usize, random: &mut Random) {
    let index = random.below(draft.records.len());
    match sort {
        0 => change_field(draft, index, random),
        1 => change_kind(draft, index, random, false),
        2 => change_kind(draft, index, random, true),
        3 => draft.records[index].ty = similar_type(draft, draft.records[index].ty, random),
        4 => change_later_types(draft, index, random),
        5 => change_index(draft, index, random),
        6 => change_link(draft, index, random),
        7 => swap_links(draft, index, random),
        8 => swap_records(draft, index, random),
        9 => change_type_entry(draft, random),
        10 => change_type_field(draft, index, random),
        _ => {}
    }
}

/// A value that is often at the edge of what a field may hold.
fn tempting(draft: &Draft, index: usize, random: &mut Random) -> u16 {
    let (types, records, own) = (draft.types.len() as u16, draft.records.len() as u16, index as u16 + 1);
    let drawn = random.below(usize::from(records) + 1) as u16;
    let values = [0, 1, 2, types, types + 1, records, records + 1, own, own + 1, drawn, u16::MAX];
    values[random.below(values.len())]
}

fn some_type(draft: &Draft, random: &mut Random) -> u16 {
    random.between(1, draft.types.len()) as u16
}

/// Another type, mostly one that shares its form and a part with the old one.
fn similar_type(draft: &Draft, old: u16, random: &mut Random) -> u16 {
    let Some(&[form, a, b]) = draft.types.get(usize::from(old).wrapping_sub(1)) else { return some_type(draft, random) };
    let is_similar = |entry: &[u16; 3]| entry[0] == form && (entry[1] == a) != (entry[2] == b);
    let similar: Vec<u16> = (1..).zip(&draft.types).filter(|(_, entry)| is_similar(entry)).map(|(number, _)| number).collect();
    random.pick(&similar).filter(|_| random.percent(70)).unwrap_or_else(|| some_type(draft, random))
}

fn change_field(draft: &mut Draft, index: usize, random: &mut Random) {
    let value = tempting(draft, index, random);
    let record = &mut draft.records[index];
    match random.below(7) {
        0 => record.kind = value,
        1 => record.ty = value,
        2 => record.a = value,
        3 => record.b = value,
        4 => record.first = value,
        5 => record.next = value,
        _ => record.value = if random.percent(50) { value.into() } else { random.number() as u32 },
    }
}

/// Gives a record another kind, with fields that suit it; with as many children where they are to be kept.
fn change_kind(draft: &mut Draft, index: usize, random: &mut Random, keep_children: bool) {
    let old = draft.records[index];
    let kinds: Vec<u16> = (kind::NUMBER..=kind::MATCH_FIX).filter(|&kind| !keep_children || child_count(kind) == child_count(old.kind)).collect();
    let Some(kind) = random.pick(&kinds) else { return };
    draft.records[index] = Record { ty: old.ty, first: old.first, next: old.next, ..fitting_record(kind, draft.types.len(), 6, random) };
}

/// A record of a kind without type and links: what it names is one of so many types, and its index below the limit.
pub fn fitting_record(kind: u16, types: usize, indices: usize, random: &mut Random) -> Record {
    let mut record = Record { kind, ..Record::default() };
    let mut some_type = || random.between(1, types) as u16;
    match kind {
        kind::NUMBER | kind::MATCH_NUMBER => record.value = random.below(4) as u32,
        kind::VARIABLE | kind::MATCH_VARIABLE => record.a = random.below(indices) as u16,
        kind::FUNCTION | kind::MATCH_LIFT..=kind::MATCH_FIX => record.a = some_type(),
        kind::MATCH_APPLICATION => (record.a, record.b) = (some_type(), some_type()),
        _ => {}
    }
    record
}

/// From a record on, gives all records of its type another type.
fn change_later_types(draft: &mut Draft, index: usize, random: &mut Random) {
    let ty = some_type(draft, random);
    let old = draft.records[index].ty;
    for record in draft.records[index..].iter_mut().filter(|record| record.ty == old) {
        record.ty = ty;
    }
}

/// Changes the index of the first match variable, or that of the next variable of either sort from a record on.
fn change_index(draft: &mut Draft, index: usize, random: &mut Random) {
    let value = if random.percent(70) { random.below(8) as u16 } else { tempting(draft, index, random) };
    let match_variables = random.percent(40);
    let from = if match_variables { 0 } else { index };
    let holds_index = |record: &&mut Record| record.kind == kind::MATCH_VARIABLE || record.kind == kind::VARIABLE && !match_variables;
    if let Some(record) = draft.records[from..].iter_mut().find(holds_index) {
        record.a = value;
    }
}

fn change_link(draft: &mut Draft, index: usize, random: &mut Random) {
    let value = tempting(draft, index, random);
    let record = &mut draft.records[index];
    *(if random.percent(50) { &mut record.first } else { &mut record.next }) = value;
}

/// Exchanges two links, so that each record is still named as often.
fn swap_links(draft: &mut Draft, index: usize, random: &mut Random) {
    let near = random.between(0, 6).min(draft.records.len() - 1 - index);
    let other = if random.percent(60) { index + near } else { random.below(draft.records.len()) };
    let (one, two) = (draft.records[index], draft.records[other]);
    match random.below(3) {
        0 => (draft.records[index].first, draft.records[other].first) = (two.first, one.first),
        1 => (draft.records[index].next, draft.records[other].next) = (two.next, one.next),
        _ => (draft.records[index].first, draft.records[other].next) = (two.next, one.first),
    }
}

/// Exchanges two records, with their links or without them.
fn swap_records(draft: &mut Draft, index: usize, random: &mut Random) {
    let other = random.below(draft.records.len());
    draft.records.swap(index, other);
    if random.percent(60) {
        let (one, two) = (draft.records[index], draft.records[other]);
        draft.records[index] = Record { first: two.first, next: two.next, ..one };
        draft.records[other] = Record { first: one.first, next: one.next, ..two };
    }
}

fn change_type_entry(draft: &mut Draft, random: &mut Random) {
    let count = draft.types.len();
    let entry = random.below(count);
    let drawn = random.below(count + 2) as u16;
    match random.below(5) {
        0 => draft.types[entry] = draft.types[random.below(count)],
        1 => draft.types.swap(entry, random.below(count)),
        2 => draft.types[entry][0] = random.below(5) as u16,
        3 => draft.types[entry][random.between(1, 2)] = drawn,
        _ => draft.types[entry][random.below(3)] = [0, entry as u16, entry as u16 + 1, u16::MAX][random.below(4)],
    }
}

/// Changes a field that names a type, the next one from a record on.
fn change_type_field(draft: &mut Draft, index: usize, random: &mut Random) {
    let lowest = if random.percent(70) { kind::MATCH_APPLICATION } else { kind::FUNCTION };
    let holds_type = |record: &Record| record.kind >= lowest && matches!(record.kind, kind::FUNCTION | kind::MATCH_APPLICATION..=kind::MATCH_FIX);
    let Some(found) = (index..draft.records.len()).find(|&index| holds_type(&draft.records[index])) else { return };
    let Record { kind, a, b, .. } = draft.records[found];
    if kind == kind::MATCH_APPLICATION && random.percent(50) {
        draft.records[found].b = similar_type(draft, b, random);
    } else {
        draft.records[found].a = similar_type(draft, a, random);
    }
}

/// Damage below the fields: counts, length, or single bytes.
fn change_bytes(bytes: &mut Vec<u8>, random: &mut Random) {
    match random.below(6) {
        0 => bytes.truncate(random.below(5)),
        1 => bytes.truncate(random.below(bytes.len())),
        2 => {
            let length = random.between(1, 40);
            bytes.extend(random_bytes(length, random));
        }
        3 | 4 => {
            let count = if random.percent(50) { 0 } else { 2 };
            let old = u16::from_le_bytes([bytes[count], bytes[count + 1]]);
            let values = [0, 1, old.wrapping_sub(1), old + 1, 256, 257, 2_048, 2_049, u16::MAX];
            bytes[count..count + 2].copy_from_slice(&values[random.below(values.len())].to_le_bytes());
        }
        _ => {
            for _ in 0..random.between(1, 3) {
                let place = random.below(bytes.len());
                bytes[place] = random.number() as u8;
            }
        }
    }
}

pub fn random_bytes(length: usize, random: &mut Random) -> Vec<u8> {
    (0..length).map(|_| random.number() as u8).collect()
}

/// A sound header with a body of the right length; the body is random, or of small 16-bit numbers.
pub fn random_body(random: &mut Random) -> Vec<u8> {
    let (types, records) = (random.between(1, 4), random.between(1, 8));
    let length = HEADER_BYTES + TYPE_BYTES * types + RECORD_BYTES * records;
    let small = random.percent(70);
    let mut bytes = random_bytes(length, random);
    if small {
        bytes.chunks_exact_mut(2).for_each(|field| field.copy_from_slice(&[field[0] % 4, 0]));
        bytes[HEADER_BYTES..HEADER_BYTES + TYPE_BYTES].copy_from_slice(&[1, 0, 0, 0, 0, 0]);
    }
    bytes[..HEADER_BYTES].copy_from_slice(&[types as u8, 0, records as u8, 0]);
    bytes
}
