//! Levels and types of a program whose types are written: the checks 10 to 12, in preorder.
use super::format::Program;
use super::judging::{child_level, judge, Binders};
use super::Refusal;

struct Checker<'a> {
    program: &'a Program,
    binders: Binders,
}

/// Gives the first faulty record in preorder, with its lowest number.
pub fn check(program: &Program) -> Result<(), Refusal> {
    Checker { program, binders: Binders::default() }.tree(1, 0)
}

impl Checker<'_> {
    fn tree(&mut self, number: u16, level: u8) -> Result<(), Refusal> {
        let program = self.program;
        let record = program.record(number);
        let mut child_types = [0; 3];
        for (ty, child) in child_types.iter_mut().zip(program.children(number)) {
            *ty = program.record(child).ty;
        }
        let due = judge(&program.types, &self.binders, record, level, child_types);
        let fits = due.and_then(|due| if due.is(&program.types, record.ty) { Ok(()) } else { Err(12) });
        fits.map_err(|fault| Refusal { number: fault, place: number.into() })?;
        let outer = self.binders.count();
        for (position, child) in program.children(number).enumerate() {
            self.binders.bind(record, level, position);
            self.tree(child, child_level(record.kind, level))?;
            self.binders.leave(outer);
        }
        Ok(())
    }
}
