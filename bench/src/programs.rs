//! A builder of programs in document 01's form: types are interned in a table, terms are owned trees, and the layout is in preorder.
use std::cell::RefCell;

/// A record and its children's trees, not yet numbered.
#[derive(Clone)]
pub struct Term {
    kind: u16,
    written_type: u16,
    a: u16,
    b: u16,
    value: u32,
    children: Vec<Term>,
    records: usize,
}

impl Term {
    fn new(kind: u16, written_type: u16, children: Vec<Term>) -> Term {
        let records = 1 + children.iter().map(|child| child.records).sum::<usize>();
        Term { kind, written_type, a: 0, b: 0, value: 0, children, records }
    }

    pub fn written_type(&self) -> u16 {
        self.written_type
    }

    fn write(&self, number: usize, next: usize, bytes: &mut Vec<u8>) {
        let first = if self.children.is_empty() { 0 } else { number + 1 };
        for field in [self.kind, self.written_type, self.a, self.b, first as u16, next as u16] {
            bytes.extend(field.to_le_bytes());
        }
        bytes.extend(self.value.to_le_bytes());
        let mut child_number = number + 1;
        for (position, child) in self.children.iter().enumerate() {
            let after = child_number + child.records;
            let sibling = if position + 1 < self.children.len() { after } else { 0 };
            child.write(child_number, sibling, bytes);
            child_number = after;
        }
    }
}

/// The table of types, with constructors of terms that are written under it. A term's type is derived from its parts where they tell it.
#[derive(Default)]
pub struct Builder {
    entries: RefCell<Vec<[u16; 3]>>,
}

/// Types: each constructor gives the number of its entry, counted from 1, and makes the entry at its first use.
impl Builder {
    pub fn nat(&self) -> u16 {
        self.intern([1, 0, 0])
    }

    pub fn fun(&self, argument: u16, result: u16) -> u16 {
        self.intern([2, argument, result])
    }

    pub fn code(&self, inner: u16) -> u16 {
        self.intern([3, inner, 0])
    }

    fn intern(&self, entry: [u16; 3]) -> u16 {
        let mut entries = self.entries.borrow_mut();
        let known = entries.iter().position(|other| *other == entry);
        let position = known.unwrap_or_else(|| {
            entries.push(entry);
            entries.len() - 1
        });
        position as u16 + 1
    }

    fn function_parts(&self, number: u16) -> (u16, u16) {
        let [kind, argument, result] = self.entries.borrow()[usize::from(number) - 1];
        assert_eq!(kind, 2, "type {number} is not a function type");
        (argument, result)
    }

    fn code_part(&self, number: u16) -> u16 {
        let [kind, inner, _] = self.entries.borrow()[usize::from(number) - 1];
        assert_eq!(kind, 3, "type {number} is not a code type");
        inner
    }
}

/// Terms of kinds 1 to 8.
impl Builder {
    pub fn number(&self, value: u32) -> Term {
        Term { value, ..Term::new(1, self.nat(), vec![]) }
    }

    pub fn variable(&self, written_type: u16, index: u16) -> Term {
        Term { a: index, ..Term::new(2, written_type, vec![]) }
    }

    pub fn function(&self, argument: u16, body: Term) -> Term {
        Term { a: argument, ..Term::new(3, self.fun(argument, body.written_type), vec![body]) }
    }

    pub fn application(&self, function: Term, argument: Term) -> Term {
        let (_, result) = self.function_parts(function.written_type);
        Term::new(4, result, vec![function, argument])
    }

    pub fn fix(&self, function: Term) -> Term {
        let (_, result) = self.function_parts(function.written_type);
        Term::new(5, result, vec![function])
    }

    pub fn lift(&self, number: Term) -> Term {
        Term::new(6, self.code(self.nat()), vec![number])
    }

    pub fn quote(&self, quoted: Term) -> Term {
        Term::new(7, self.code(quoted.written_type), vec![quoted])
    }

    pub fn splice(&self, code: Term) -> Term {
        Term::new(8, self.code_part(code.written_type), vec![code])
    }
}

/// Matches, kinds 9 to 14: the children are code, success, failure.
impl Builder {
    pub fn match_number(&self, value: u32, code: Term, success: Term, failure: Term) -> Term {
        Term { value, ..Term::new(9, failure.written_type, vec![code, success, failure]) }
    }

    pub fn match_variable(&self, index: u16, code: Term, success: Term, failure: Term) -> Term {
        Term { a: index, ..Term::new(10, failure.written_type, vec![code, success, failure]) }
    }

    /// Matches an application whose argument has the type `argument`: binds the code of the function, index 1, and of the argument, index 0.
    pub fn match_application(&self, argument: u16, code: Term, success: Term, failure: Term) -> Term {
        let function = self.fun(argument, self.code_part(code.written_type));
        let (a, b) = (self.code(function), self.code(argument));
        Term { a, b, ..Term::new(11, failure.written_type, vec![code, success, failure]) }
    }

    pub fn match_lift(&self, code: Term, success: Term, failure: Term) -> Term {
        Term { a: self.nat(), ..Term::new(12, failure.written_type, vec![code, success, failure]) }
    }

    /// Matches a function: binds a function from the code of its argument to the code of its body.
    pub fn match_function(&self, code: Term, success: Term, failure: Term) -> Term {
        let (argument, result) = self.function_parts(self.code_part(code.written_type));
        let a = self.fun(self.code(argument), self.code(result));
        Term { a, ..Term::new(13, failure.written_type, vec![code, success, failure]) }
    }

    pub fn match_fix(&self, code: Term, success: Term, failure: Term) -> Term {
        let inner = self.code_part(code.written_type);
        let a = self.code(self.fun(inner, inner));
        Term { a, ..Term::new(14, failure.written_type, vec![code, success, failure]) }
    }
}

impl Builder {
    /// The program of a root: counts, the table of types, the records in preorder.
    pub fn program(&self, root: &Term) -> Vec<u8> {
        let entries = self.entries.borrow();
        let mut bytes = Vec::with_capacity(4 + 6 * entries.len() + 16 * root.records);
        for count in [entries.len() as u16, root.records as u16] {
            bytes.extend(count.to_le_bytes());
        }
        for part in entries.iter().flatten() {
            bytes.extend(part.to_le_bytes());
        }
        root.write(1, 0, &mut bytes);
        bytes
    }
}

/// The count of records that a program states.
pub fn stated_records(program: &[u8]) -> usize {
    usize::from(u16::from_le_bytes([program[2], program[3]]))
}

/// A program without its types, under the first so many entries of its table, which have to hold the types of its binders.
pub fn untyped(program: &[u8], types: u16) -> Vec<u8> {
    let stated_types = usize::from(u16::from_le_bytes([program[0], program[1]]));
    let (table, records) = program[4..].split_at(6 * stated_types);
    let mut records = records.to_vec();
    records.chunks_exact_mut(16).for_each(|record| record[2..4].fill(0));
    [&types.to_le_bytes()[..], &program[2..4], &table[..6 * usize::from(types)], &records].concat()
}

/// The 16-bit fields of a record that faults are put into, by their places in it.
#[derive(Clone, Copy)]
pub enum Field {
    Type = 1,
    First = 4,
}

/// Overwrites one field of the last record of a laid-out program.
pub fn overwrite_last(program: &mut [u8], field: Field, content: u16) {
    let at = program.len() - 16 + 2 * field as usize;
    program[at..at + 2].copy_from_slice(&content.to_le_bytes());
}
