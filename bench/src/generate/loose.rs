//! Small trees of any kinds under a small table: they keep the form, and the rules of levels and types only by chance.
use super::damage::fitting_record;
use super::layout::{Draft, Tree};
use crate::random::Random;
use crate::reference::format::{child_count, kind, Type};
use crate::reference::judging::child_level;

/// What matches of Nat and of Fn(Nat,Nat) bind, and what that is made of.
const TYPES: [Type; 6] = [Type::Nat, Type::Code(1), Type::Function(1, 1), Type::Code(3), Type::Function(2, 2), Type::Function(3, 1)];

pub fn draft(random: &mut Random) -> Draft {
    let (room, strays) = (random.between(1, 14), [10, 50, 100][random.below(3)]);
    let tree = Loose { random, strays }.tree(0, 0, room);
    let order = if random.percent(50) { Some(random) } else { None };
    Draft::new(&TYPES, &tree, order)
}

struct Loose<'a> {
    random: &'a mut Random,
    /// The percentage of records whose kind is chosen without regard to the level.
    strays: usize,
}

impl Loose<'_> {
    /// A tree at the level under so many binders, of about as many records as there is room for.
    fn tree(&mut self, level: u8, binders: usize, room: usize) -> Tree {
        let kind = if room == 1 { self.leaf(binders) } else { self.branch(level, room) };
        let record = fitting_record(kind, TYPES.len(), binders.max(1), self.random);
        let mut rest = room - 1;
        let mut child = |position: usize| {
            let share = if position + 1 == child_count(kind) { rest } else { self.random.below(rest + 1) };
            rest -= share;
            self.tree(child_level(kind, level), binders + bound(kind, position), share.max(1))
        };
        let children = (0..child_count(kind)).map(&mut child).collect();
        Tree { record, children }
    }

    fn leaf(&mut self, binders: usize) -> u16 {
        let variables = if binders == 0 { 5 } else { 60 };
        if self.random.percent(variables) {
            kind::VARIABLE
        } else {
            kind::NUMBER
        }
    }

    fn branch(&mut self, level: u8, room: usize) -> u16 {
        let stray = self.random.percent(self.strays);
        let stands = |kind: u16| matches!(kind, kind::FUNCTION..=kind::FIX) || (kind == kind::SPLICE) == (level == 1);
        let largest = if room < 4 { kind::SPLICE } else { kind::MATCH_FIX };
        let kinds: Vec<u16> = (kind::FUNCTION..=largest).filter(|&kind| stray || stands(kind)).collect();
        kinds[self.random.below(kinds.len())]
    }
}

/// How many binders a kind puts over its child at this position.
fn bound(kind: u16, position: usize) -> usize {
    match (kind, position) {
        (kind::FUNCTION, 0) | (kind::MATCH_LIFT..=kind::MATCH_FIX, 1) => 1,
        (kind::MATCH_APPLICATION, 1) => 2,
        _ => 0,
    }
}
