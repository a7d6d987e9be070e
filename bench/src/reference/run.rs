//! The run: evaluation at level 0, generation at level 1, and the writing of the last term.
use super::format::{head_bytes, kind, write_head, Program, Record, Types, RECORD_BYTES};
use super::steps;
use super::term::{Node, Pattern, Term};
use super::{Ending, Ran};

/// Why no further step is made though the term is no value.
enum Stop {
    Spent,
    Full,
}

struct Machine<'a> {
    types: &'a Types,
    fuel: u32,
    steps: u32,
    /// The records of the whole term.
    size: usize,
    /// The variables that gave way in the steps that were made.
    replaced: u64,
}

/// Runs a checked program and writes the last term.
pub fn run(program: &Program, fuel: u32, output: &mut [u8]) -> Ran {
    let mut term = Term::of_record(program, 1);
    let mut machine = Machine { types: &program.types, fuel, steps: 0, size: program.records.len(), replaced: 0 };
    let ending = match machine.evaluate(&mut term) {
        Ok(()) => Ending::Value,
        Err(Stop::Spent) => Ending::Spent,
        Err(Stop::Full) => Ending::Full,
    };
    let written = write_program(&program.types, &term, machine.size, output);
    Ran { ending, steps: machine.steps, root_type: term.ty.into(), written, replaced: machine.replaced }
}

impl Machine<'_> {
    /// Makes a term at level 0 a value. A stop leaves the last term that was reached.
    fn evaluate(&mut self, term: &mut Term) -> Result<(), Stop> {
        loop {
            match &mut term.node {
                Node::Number(_) | Node::Function { .. } => return Ok(()),
                Node::Quote(code) => return self.generate(code),
                Node::Application(pair) => {
                    self.evaluate(&mut pair.function)?;
                    self.evaluate(&mut pair.argument)?;
                }
                Node::Fix(child) | Node::Lift(child) => self.evaluate(child)?,
                Node::Match(parts) => self.evaluate(&mut parts.code)?,
                Node::Variable(_) | Node::Splice(_) => unreachable!("no level-0 variable is free where steps are made, no splice at level 0"),
            }
            self.step(term)?;
        }
    }

    /// Makes a term at level 1 plain.
    fn generate(&mut self, term: &mut Term) -> Result<(), Stop> {
        match &mut term.node {
            Node::Number(_) | Node::Variable(_) => Ok(()),
            Node::Function { body: child, .. } | Node::Fix(child) => self.generate(child),
            Node::Application(pair) => {
                self.generate(&mut pair.function)?;
                self.generate(&mut pair.argument)
            }
            Node::Splice(child) => {
                self.evaluate(child)?;
                self.step(term)
            }
            Node::Lift(_) | Node::Quote(_) | Node::Match(_) => unreachable!("these kinds stand at level 0"),
        }
    }

    fn step(&mut self, redex: &mut Term) -> Result<(), Stop> {
        if self.steps == self.fuel {
            return Err(Stop::Spent);
        }
        let made = steps::contract(redex, self.types, self.size).ok_or(Stop::Full)?;
        self.size = made.size;
        self.replaced += made.replaced;
        self.steps += 1;
        Ok(())
    }
}

/// Writes a term of `size` records in preorder, after its type table; gives the length.
pub fn write_program(types: &Types, term: &Term, size: usize, output: &mut [u8]) -> usize {
    let (head, records) = output.split_at_mut(head_bytes(types));
    write_head(types, size, head);
    write_tree(term, 1, false, records);
    head.len() + RECORD_BYTES * size
}

/// Writes a tree whose root has this number; gives the number after its last record.
fn write_tree(term: &Term, number: u16, has_sibling: bool, records: &mut [u8]) -> u16 {
    let mut children = [None; 3];
    let mut count = 0;
    term.each_child(|child, _| {
        children[count] = Some(child);
        count += 1;
    });
    let mut end = number + 1;
    for (position, child) in children.iter().flatten().enumerate() {
        end = write_tree(child, end, position + 1 < count, records);
    }
    let first = if count > 0 { number + 1 } else { 0 };
    let next = if has_sibling { end } else { 0 };
    let start = RECORD_BYTES * (usize::from(number) - 1);
    Record { first, next, ..own_fields(term) }.write(&mut records[start..start + RECORD_BYTES]);
    end
}

/// A record's fields without its links.
fn own_fields(term: &Term) -> Record {
    let (kind, a, b, value) = match &term.node {
        Node::Number(value) => (kind::NUMBER, 0, 0, *value),
        Node::Variable(index) => (kind::VARIABLE, *index, 0, 0),
        Node::Function { argument, .. } => (kind::FUNCTION, *argument, 0, 0),
        Node::Application(_) => (kind::APPLICATION, 0, 0, 0),
        Node::Fix(_) => (kind::FIX, 0, 0, 0),
        Node::Lift(_) => (kind::LIFT, 0, 0, 0),
        Node::Quote(_) => (kind::QUOTE, 0, 0, 0),
        Node::Splice(_) => (kind::SPLICE, 0, 0, 0),
        Node::Match(parts) => match parts.pattern {
            Pattern::Number(value) => (kind::MATCH_NUMBER, 0, 0, value),
            Pattern::Variable(index) => (kind::MATCH_VARIABLE, index, 0, 0),
            Pattern::Application { function, argument } => (kind::MATCH_APPLICATION, function, argument, 0),
            Pattern::Lift(ty) => (kind::MATCH_LIFT, ty, 0, 0),
            Pattern::Function(ty) => (kind::MATCH_FUNCTION, ty, 0, 0),
            Pattern::Fix(ty) => (kind::MATCH_FIX, ty, 0, 0),
        },
    };
    Record { kind, ty: term.ty, a, b, value, ..Record::default() }
}
