//! Trees of records, and their layout as programs: in preorder, or numbered at random with every link going up.
use crate::random::Random;
use crate::reference::format::{Record, Type, HEADER_BYTES, RECORD_BYTES, TYPE_BYTES};

/// A record without links, and its children.
#[derive(Clone)]
pub struct Tree {
    pub record: Record,
    pub children: Vec<Tree>,
}

impl Tree {
    pub fn new(kind: u16, ty: u16, children: Vec<Tree>) -> Tree {
        Tree { record: Record { kind, ty, ..Record::default() }, children }
    }

    pub fn size(&self) -> usize {
        1 + self.children.iter().map(Tree::size).sum::<usize>()
    }
}

/// A program as its fields, which need not fit together.
#[derive(Clone)]
pub struct Draft {
    pub types: Vec<[u16; 3]>,
    pub records: Vec<Record>,
}

impl Draft {
    /// Lays out a tree in preorder, or in another order where `random` is given.
    pub fn new(types: &[Type], tree: &Tree, random: Option<&mut Random>) -> Draft {
        let fields = |ty: &Type| match *ty {
            Type::Nat => [1, 0, 0],
            Type::Function(a, b) => [2, a, b],
            Type::Code(a) => [3, a, 0],
        };
        let mut records = Vec::new();
        push_preorder(tree, false, &mut records);
        if let Some(random) = random {
            records = renumbered(&records, random);
        }
        Draft { types: types.iter().map(fields).collect(), records }
    }

    pub fn bytes(&self) -> Vec<u8> {
        let mut bytes = Vec::with_capacity(HEADER_BYTES + TYPE_BYTES * self.types.len() + RECORD_BYTES * self.records.len());
        for field in [self.types.len() as u16, self.records.len() as u16].iter().chain(self.types.iter().flatten()) {
            bytes.extend(field.to_le_bytes());
        }
        for record in &self.records {
            let mut fields = [0; RECORD_BYTES];
            record.write(&mut fields);
            bytes.extend(fields);
        }
        bytes
    }
}

fn push_preorder(tree: &Tree, has_sibling: bool, records: &mut Vec<Record>) {
    let index = records.len();
    records.push(tree.record);
    for (position, child) in tree.children.iter().enumerate() {
        push_preorder(child, position + 1 < tree.children.len(), records);
    }
    records[index].first = if tree.children.is_empty() { 0 } else { index as u16 + 2 };
    records[index].next = if has_sibling { records.len() as u16 + 1 } else { 0 };
}

/// Gives the records new numbers: any record that is linked from a numbered one may come next.
fn renumbered(records: &[Record], random: &mut Random) -> Vec<Record> {
    let mut numbers = vec![0; records.len() + 1];
    let mut order = Vec::with_capacity(records.len());
    let mut linked = vec![1_u16];
    while !linked.is_empty() {
        let old = linked.swap_remove(random.below(linked.len()));
        let record = records[usize::from(old) - 1];
        order.push(record);
        numbers[usize::from(old)] = order.len() as u16;
        linked.extend([record.first, record.next].into_iter().filter(|&link| link != 0));
    }
    for record in &mut order {
        record.first = numbers[usize::from(record.first)];
        record.next = numbers[usize::from(record.next)];
    }
    order
}
