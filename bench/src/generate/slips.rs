//! Terms that break a rule of levels and types in the place they are put.
use super::layout::Tree;
use super::terms::{variable, Terms};
use crate::reference::format::{kind, Record};

impl Terms<'_> {
    /// A term that mostly breaks a rule where one of the type at the level is asked for.
    pub fn slip(&mut self, ty: u16, level: usize, room: usize) -> Tree {
        let made = match self.random.below(6) {
            0 => self.exists(ty, 1 - level).then(|| self.term(ty, 1 - level, room)),
            1 => self.term_of_another_type(level, room),
            2 => Some(variable(ty, self.free_index())),
            3 => self.variable(ty, 1 - level),
            4 => self.variable_of_another_type(ty, level),
            _ => self.misplaced_match(ty, level, room),
        };
        made.unwrap_or_else(|| self.leaf(ty, level))
    }

    fn term_of_another_type(&mut self, level: usize, room: usize) -> Option<Tree> {
        let types: Vec<u16> = self.table.all().filter(|&ty| self.exists(ty, level)).collect();
        self.random.pick(&types).map(|ty| self.term(ty, level, room))
    }

    /// An index that is not below the binders, or only just.
    fn free_index(&mut self) -> u16 {
        (self.binders.len() + self.random.below(3)).saturating_sub(1) as u16
    }

    fn variable_of_another_type(&mut self, ty: u16, level: usize) -> Option<Tree> {
        let indices = self.indices(|binder| binder.ty != ty && binder.level == level);
        self.random.pick(&indices).map(|index| variable(ty, index))
    }

    /// A match variable at any level, with any index.
    fn misplaced_match(&mut self, ty: u16, level: usize, room: usize) -> Option<Tree> {
        let codes: Vec<u16> = self.table.all().filter(|&ty| self.table.types.within_code(ty).is_some() && self.exists(ty, 0)).collect();
        let code = self.random.pick(&codes)?;
        let [code_room, success_room, failure_room] = self.shares(room);
        let code = self.term(code, 0, code_room);
        let children = vec![code, self.term(ty, level, success_room), self.term(ty, level, failure_room)];
        let a = self.random.below(self.binders.len() + 2) as u16;
        Some(Tree { record: Record { kind: kind::MATCH_VARIABLE, ty, a, ..Record::default() }, children })
    }
}
