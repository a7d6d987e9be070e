//! One record by its binders, its level and its children's types: the type that is due to it, or its lowest number of 10 to 12.
use super::format::{kind, Record, Type, Types, NAT};

#[derive(Clone, Copy)]
struct Binder {
    level: u8,
    ty: u16,
}

/// The binders over a record, the outermost first.
#[derive(Default)]
pub struct Binders(Vec<Binder>);

impl Binders {
    pub fn count(&self) -> usize {
        self.0.len()
    }

    /// Leaves the outermost ones.
    pub fn leave(&mut self, count: usize) {
        self.0.truncate(count);
    }

    /// Adds the binders that a record puts over its child at this position.
    pub fn bind(&mut self, record: &Record, level: u8, position: usize) {
        match (record.kind, position) {
            (kind::FUNCTION, 0) => self.0.push(Binder { level, ty: record.a }),
            (kind::MATCH_APPLICATION, 1) => self.0.extend([record.a, record.b].map(|ty| Binder { level: 0, ty })),
            (kind::MATCH_LIFT..=kind::MATCH_FIX, 1) => self.0.push(Binder { level: 0, ty: record.a }),
            _ => {}
        }
    }

    /// The binder that an index names.
    fn named(&self, index: u16) -> Option<Binder> {
        self.0.iter().rev().nth(index.into()).copied()
    }
}

/// The level of a record's children.
pub fn child_level(kind: u16, level: u8) -> u8 {
    match kind {
        kind::QUOTE => 1,
        kind::SPLICE => 0,
        _ => level,
    }
}

/// The type that the rules give a record: an entry that is known, or a type made of entries, which may be missing from the table.
#[derive(Clone, Copy)]
pub enum Due {
    Entry(u16),
    Made(Type),
}

impl Due {
    pub fn is(self, types: &Types, number: u16) -> bool {
        match self {
            Due::Entry(due) => due == number,
            Due::Made(due) => due == types.get(number),
        }
    }
}

/// The type that is due to a record; the error is its lowest number of 10 to 12, of which 12 says here that no type would be right.
#[inline(always)] // both walks ask it of each record
pub fn judge(types: &Types, binders: &Binders, record: &Record, level: u8, child_types: [u16; 3]) -> Result<Due, u32> {
    let named = match record.kind {
        kind::VARIABLE | kind::MATCH_VARIABLE => Some(binders.named(record.a).ok_or(10_u32)?),
        _ => None,
    };
    if !level_fits(record.kind, level, named) {
        return Err(11);
    }
    due_type(types, record, named, child_types).ok_or(12)
}

/// The kind may stand at this level, and the binder it names has the level it needs.
fn level_fits(kind: u16, level: u8, named: Option<Binder>) -> bool {
    match kind {
        kind::NUMBER | kind::FUNCTION..=kind::FIX => true,
        kind::VARIABLE => named.is_some_and(|binder| binder.level == level),
        kind::SPLICE => level == 1,
        kind::MATCH_VARIABLE => level == 0 && named.is_some_and(|binder| binder.level == 1),
        _ => level == 0,
    }
}

#[inline(always)]
fn due_type(types: &Types, record: &Record, named: Option<Binder>, [first, second, third]: [u16; 3]) -> Option<Due> {
    match record.kind {
        kind::NUMBER => Some(Due::Entry(NAT)),
        kind::VARIABLE => named.map(|binder| Due::Entry(binder.ty)),
        kind::FUNCTION => Some(Due::Made(Type::Function(record.a, first))),
        kind::APPLICATION => match types.get(first) {
            Type::Function(argument, result) if argument == second => Some(Due::Entry(result)),
            _ => None,
        },
        kind::FIX => match types.get(first) {
            Type::Function(argument, result) if argument == result => Some(Due::Entry(result)),
            _ => None,
        },
        kind::LIFT => types.is_nat(first).then_some(Due::Made(Type::Code(first))),
        kind::QUOTE => Some(Due::Made(Type::Code(first))),
        kind::SPLICE => types.within_code(first).map(Due::Entry),
        _ => {
            let code = types.within_code(first)?;
            (second == third && pattern_fits(types, record, named, code)).then_some(Due::Entry(second))
        }
    }
}

/// A match's own fields against the type within its code child.
fn pattern_fits(types: &Types, record: &Record, named: Option<Binder>, code: u16) -> bool {
    match record.kind {
        kind::MATCH_NUMBER => types.is_nat(code),
        kind::MATCH_VARIABLE => named.is_some_and(|binder| binder.ty == code),
        kind::MATCH_APPLICATION => match (types.within_code(record.a), types.within_code(record.b)) {
            (Some(function), Some(argument)) => types.get(function) == Type::Function(argument, code),
            _ => false,
        },
        kind::MATCH_LIFT => types.is_nat(code) && types.is_nat(record.a),
        kind::MATCH_FUNCTION => match (types.get(code), types.get(record.a)) {
            (Type::Function(p, q), Type::Function(from, to)) => types.get(from) == Type::Code(p) && types.get(to) == Type::Code(q),
            _ => false,
        },
        _ => types.within_code(record.a).is_some_and(|step| types.get(step) == Type::Function(code, code)),
    }
}
