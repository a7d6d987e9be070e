//! Random matches of code, and fixes that go through code by them.
use super::layout::Tree;
use super::terms::{function, variable, Binder, Terms};
use super::types::MatchTypes;
use crate::reference::format::{kind, Record, Type};

/// A match without its children, and the type of its code child.
#[derive(Clone, Copy)]
struct Pattern {
    record: Record,
    code: u16,
}

impl Pattern {
    fn new(kind: u16, types: MatchTypes) -> Pattern {
        Pattern { record: Record { kind, a: types.a, b: types.b, ..Record::default() }, code: types.code }
    }

    /// The types that it binds over success.
    fn bound(&self) -> Vec<u16> {
        match self.record.kind {
            kind::MATCH_APPLICATION => vec![self.record.a, self.record.b],
            kind::MATCH_LIFT..=kind::MATCH_FIX => vec![self.record.a],
            _ => Vec::new(),
        }
    }
}

impl Terms<'_> {
    /// A match of any kind; its code is often what it looks for.
    pub fn code_match(&mut self, ty: u16, room: usize) -> Option<Tree> {
        let pattern = self.pattern(None)?;
        if !self.exists(pattern.code, 0) {
            return None;
        }
        let [code_room, success_room, failure_room] = self.shares(room);
        let aimed = if self.random.percent(65) { self.aimed_code(&pattern, code_room) } else { None };
        let code = aimed.unwrap_or_else(|| self.term(pattern.code, 0, code_room));
        Some(self.match_of(&pattern, ty, code, success_room, failure_room))
    }

    /// A fix of a function that matches its argument and mostly calls itself with what is bound.
    pub fn recursion(&mut self, ty: u16, room: usize) -> Option<Tree> {
        let Type::Function(code, result) = self.table.types.get(ty) else { return None };
        self.table.types.within_code(code)?;
        let step = self.table.number(Type::Function(ty, ty))?;
        self.binders.extend([ty, code].map(|ty| Binder { level: 0, ty }));
        let body = self.recursion_body(code, result, room);
        self.binders.truncate(self.binders.len() - 2);
        Some(Tree::new(kind::FIX, ty, vec![function(step, ty, function(ty, code, body?))]))
    }

    fn recursion_body(&mut self, code: u16, result: u16, room: usize) -> Option<Tree> {
        if !self.exists(result, 0) {
            return None;
        }
        let pattern = (0..4).find_map(|_| self.pattern(Some(code)))?;
        let [success_room, failure_room] = self.shares(room);
        Some(self.match_of(&pattern, result, variable(code, 0), success_room, failure_room))
    }

    fn match_of(&mut self, pattern: &Pattern, ty: u16, code: Tree, success_room: usize, failure_room: usize) -> Tree {
        let outer = self.binders.len();
        self.binders.extend(pattern.bound().into_iter().map(|ty| Binder { level: 0, ty }));
        let shaped = match self.random.below(10) {
            0..=3 => self.call(ty, 0, success_room),
            4..=6 if ty == pattern.code => self.rebuilt(pattern),
            _ => None,
        };
        let success = shaped.unwrap_or_else(|| self.term(ty, 0, success_room));
        self.binders.truncate(outer);
        let failure = self.term(ty, 0, failure_room);
        Tree { record: Record { ty, ..pattern.record }, children: vec![code, success, failure] }
    }

    /// The matched code made again of what is bound, by way of the function around the match where this is one of a recursion.
    fn rebuilt(&mut self, pattern: &Pattern) -> Option<Tree> {
        let types = &self.table.types;
        let Record { kind: matched, a, b, .. } = pattern.record;
        let part = types.within_code(pattern.code)?;
        let splice = |ty: u16, code: Tree| Tree::new(kind::SPLICE, ty, vec![code]);
        let tree = match (matched, types.get(part)) {
            (kind::MATCH_APPLICATION, _) => {
                let (function, argument) = (types.within_code(a)?, types.within_code(b)?);
                let made = self.call(b, 0, 1).unwrap_or_else(|| variable(b, 0));
                Tree::new(kind::APPLICATION, part, vec![splice(function, variable(a, 1)), splice(argument, made)])
            }
            (kind::MATCH_FUNCTION, Type::Function(p, q)) => {
                let Type::Function(from, to) = types.get(a) else { return None };
                let quoted = Tree::new(kind::QUOTE, from, vec![variable(p, 0)]);
                let made = Tree::new(kind::APPLICATION, to, vec![variable(a, 1), quoted]);
                function(part, p, splice(q, made))
            }
            (kind::MATCH_FIX, _) => Tree::new(kind::FIX, part, vec![splice(types.within_code(a)?, variable(a, 0))]),
            _ => return None,
        };
        Some(Tree::new(kind::QUOTE, pattern.code, vec![tree]))
    }

    /// A quote of a chain, for a recursion to go through.
    pub fn chained_code(&mut self, code: u16, room: usize) -> Option<Tree> {
        let part = self.table.types.within_code(code).filter(|&part| self.exists(part, 1))?;
        let tree = if self.random.percent(70) { self.chain(part, room)? } else { return None };
        Some(Tree::new(kind::QUOTE, code, vec![tree]))
    }

    /// A match that the table and the binders allow, of code of this type where one is wanted.
    fn pattern(&mut self, wanted: Option<u16>) -> Option<Pattern> {
        let matched = kind::MATCH_NUMBER + self.random.weighted(&[10, 25, 30, 10, 25, 15]) as u16;
        let fits = |code: u16| wanted.is_none_or(|wanted| wanted == code);
        let table = self.table;
        match matched {
            kind::MATCH_NUMBER | kind::MATCH_LIFT => {
                let nat = table.number(Type::Nat)?;
                let code = table.code_of(nat).filter(|&code| fits(code))?;
                let a = if matched == kind::MATCH_LIFT { nat } else { 0 };
                let mut pattern = Pattern::new(matched, MatchTypes { code, a, b: 0 });
                pattern.record.value = if matched == kind::MATCH_NUMBER { self.value() } else { 0 };
                Some(pattern)
            }
            kind::MATCH_VARIABLE => {
                let indices = self.indices(|binder| binder.level == 1 && table.code_of(binder.ty).is_some_and(fits));
                let a = self.random.pick(&indices)?;
                let code = table.code_of(self.binders[self.binders.len() - 1 - usize::from(a)].ty)?;
                Some(Pattern::new(matched, MatchTypes { code, a, b: 0 }))
            }
            _ => {
                let possible = match matched {
                    kind::MATCH_APPLICATION => &table.applications,
                    kind::MATCH_FUNCTION => &table.functions,
                    _ => &table.fixes,
                };
                let possible: Vec<MatchTypes> = possible.iter().copied().filter(|types| fits(types.code)).collect();
                self.random.pick(&possible).map(|types| Pattern::new(matched, types))
            }
        }
    }

    /// A quote of a tree that the match looks for, or nearly.
    fn aimed_code(&mut self, pattern: &Pattern, room: usize) -> Option<Tree> {
        let part = self.table.types.within_code(pattern.code)?;
        let inner = room.max(3);
        let tree = match pattern.record.kind {
            kind::MATCH_NUMBER => {
                let mut number = self.number(part);
                number.record.value = if self.random.percent(60) { pattern.record.value } else { number.record.value };
                number
            }
            kind::MATCH_VARIABLE if self.random.percent(60) => variable(part, pattern.record.a),
            kind::MATCH_VARIABLE => self.exists(part, 1).then(|| self.leaf(part, 1))?,
            kind::MATCH_APPLICATION => {
                let arrow = self.table.types.within_code(pattern.record.a)?;
                let exact = self.random.percent(75);
                (if exact { self.application_of(arrow, 1, inner) } else { self.application(part, 1, inner) })?
            }
            kind::MATCH_FIX => self.fix(part, 1, inner)?,
            _ => self.introduction(part, 1, inner)?,
        };
        Some(Tree::new(kind::QUOTE, pattern.code, vec![tree]))
    }
}
