//! Programs for the engines: valid ones with real runs, damaged ones, and random bytes.
mod damage;
mod layout;
mod loose;
mod matches;
mod slips;
mod tables;
mod terms;
mod types;
pub mod untyped;

use crate::random::Random;
use crate::reference::format::{kind, Type, MAX_RECORDS};
use layout::{Draft, Tree};
use terms::{function, variable, Style, Terms};
use types::Table;

/// A program of any sort.
pub fn program(random: &mut Random) -> Vec<u8> {
    match random.weighted(&[52, 30, 12, 3, 3]) {
        0 => draft(random, 0).bytes(),
        1 => {
            let draft = draft(random, 0);
            damage::damaged(draft, &damage::SORTS, random)
        }
        2 => {
            let slips = [2, 10, 50, 200][random.below(4)];
            draft(random, slips).bytes()
        }
        3 => {
            let length = random.below(201);
            damage::random_bytes(length, random)
        }
        _ => damage::random_body(random),
    }
}

/// A program in preorder or in another order. It keeps all rules, unless so many of a thousand terms break one of levels and types.
fn draft(random: &mut Random, slips: usize) -> Draft {
    let table = Table::random(random);
    let room = match random.weighted(&[20, 36, 30, 14]) {
        0 => random.between(1, 12),
        1 => random.between(13, 60),
        2 => random.between(61, 400),
        _ => random.between(401, MAX_RECORDS),
    };
    let tree = closed_term(&table, random, room, slips);
    let order = if random.percent(50) { Some(random) } else { None };
    Draft::new(&table.types.0, &tree, order)
}

/// A closed term at level 0, of a random type and at most the allowed records.
fn closed_term(table: &Table, random: &mut Random, room: usize, slips: usize) -> Tree {
    let mut room = room;
    loop {
        let fix = [0, 1, 3, 8][random.below(4)];
        let call = [6, 15, 60][random.below(3)];
        let skew = [0, 10, 40, 90][random.below(4)];
        let mut terms = Terms { table, random, binders: Vec::new(), style: Style { fix, call, skew, slips } };
        let candidates: Vec<u16> = table.all().filter(|&ty| terms.exists(ty, 0)).collect();
        let ty = terms.random.pick(&candidates).expect("there are numbers");
        let mut tree = terms.running_term(ty, room);
        if room > 400 && random.percent(60) {
            let target = random.between(room, MAX_RECORDS);
            tree = padded(tree, table, target, random);
        }
        if tree.size() <= MAX_RECORDS {
            return tree;
        }
        room /= 2;
    }
}

/// Puts a term under identity functions or into a spliced quote until it has about so many records.
fn padded(mut tree: Tree, table: &Table, target: usize, random: &mut Random) -> Tree {
    let ty = tree.record.ty;
    let identity = table.number(Type::Function(ty, ty));
    let part = table.types.within_code(ty);
    let mut size = tree.size();
    while size + 3 <= target {
        let spliced = random.percent(50);
        tree = match (identity, part) {
            (_, Some(part)) if spliced || identity.is_none() => {
                size += 2;
                Tree::new(kind::QUOTE, ty, vec![Tree::new(kind::SPLICE, part, vec![tree])])
            }
            (Some(arrow), _) => {
                size += 3;
                Tree::new(kind::APPLICATION, ty, vec![function(arrow, ty, variable(ty, 0)), tree])
            }
            _ => return tree,
        };
    }
    tree
}

#[cfg(test)]
mod tests {
    use super::*;
    use crate::reference;

    #[test]
    fn drafts_without_slips_pass_and_use_all_kinds() {
        let drafts = || {
            let mut kinds = [0; 15];
            for input in 0..1_000 {
                let draft = draft(&mut Random::of_input(7, input), 0);
                let passed = reference::check(&draft.bytes()).map(|passed| passed.records as usize);
                assert_eq!(passed, Ok(draft.records.len()), "input {input}");
                draft.records.iter().for_each(|record| kinds[usize::from(record.kind)] += 1);
            }
            assert!(kinds[1..].iter().all(|&count| count > 0), "{kinds:?}");
        };
        let worker = std::thread::Builder::new().stack_size(64 << 20).spawn(drafts);
        worker.expect("a thread can be started").join().expect("all drafts pass");
    }
}
