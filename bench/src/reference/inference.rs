//! The types of a program that has none written, children first: the checks 10, 11, 12 and 14.
use super::format::{Program, Record, Type, Types, MAX_TYPES};
use super::judging::{child_level, judge, Binders, Due};
use super::Refusal;
use std::collections::HashMap;

struct Inference<'a> {
    program: &'a Program,
    binders: Binders,
    /// The program's table and what has been appended to it.
    types: Types,
    numbers: HashMap<Type, u16>,
    /// The records in preorder, those typed whose trees are done.
    records: Vec<Record>,
}

/// The typed program in preorder, or the first faulty record, children first, with its lowest number.
pub fn infer(program: &Program) -> Result<Program, Refusal> {
    let types = program.types.clone();
    let numbers = types.0.iter().copied().zip(1..).collect();
    let records = Vec::with_capacity(program.records.len());
    let mut inference = Inference { program, binders: Binders::default(), types, numbers, records };
    inference.tree(1, 0)?;
    Ok(Program { types: inference.types, records: inference.records })
}

impl Inference<'_> {
    /// Types a record's tree and gives its type.
    fn tree(&mut self, number: u16, level: u8) -> Result<u16, Refusal> {
        let program = self.program;
        let record = program.record(number);
        let index = self.records.len();
        self.records.push(*record);
        let mut child_types = [0; 3];
        let outer = self.binders.count();
        for (position, child) in program.children(number).enumerate() {
            self.binders.bind(record, level, position);
            child_types[position] = self.tree(child, child_level(record.kind, level))?;
            self.binders.leave(outer);
        }
        let ty = self.own_type(record, level, child_types).map_err(|fault| Refusal { number: fault, place: number.into() })?;
        let first = if record.first == 0 { 0 } else { index as u16 + 2 };
        let next = if record.next == 0 { 0 } else { self.records.len() as u16 + 1 };
        self.records[index] = Record { ty, first, next, ..*record };
        Ok(ty)
    }

    /// The entry of a record's type; the error is its lowest number of 10, 11, 12 and 14.
    fn own_type(&mut self, record: &Record, level: u8, child_types: [u16; 3]) -> Result<u16, u32> {
        match judge(&self.types, &self.binders, record, level, child_types)? {
            Due::Entry(number) => Ok(number),
            Due::Made(ty) => self.entry(ty).ok_or(14),
        }
    }

    /// The entry of a type, which is appended where it is missing; none where the table has no room for it.
    fn entry(&mut self, ty: Type) -> Option<u16> {
        if let Some(&number) = self.numbers.get(&ty) {
            return Some(number);
        }
        if self.types.0.len() == MAX_TYPES {
            return None;
        }
        self.types.0.push(ty);
        let number = self.types.0.len() as u16;
        self.numbers.insert(ty, number);
        Some(number)
    }
}
