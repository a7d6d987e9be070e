//! The program form: a program's bytes as a type table and records, with the checks 3 to 9, and 13 of a program without types.
use super::Refusal;

pub const MAX_TYPES: usize = 256;
pub const MAX_RECORDS: usize = 2_048;
pub const HEADER_BYTES: usize = 4;
pub const TYPE_BYTES: usize = 6;
pub const RECORD_BYTES: usize = 16;

/// The numbers of the kinds of records.
pub mod kind {
    pub const NUMBER: u16 = 1;
    pub const VARIABLE: u16 = 2;
    pub const FUNCTION: u16 = 3;
    pub const APPLICATION: u16 = 4;
    pub const FIX: u16 = 5;
    pub const LIFT: u16 = 6;
    pub const QUOTE: u16 = 7;
    pub const SPLICE: u16 = 8;
    pub const MATCH_NUMBER: u16 = 9;
    pub const MATCH_VARIABLE: u16 = 10;
    pub const MATCH_APPLICATION: u16 = 11;
    pub const MATCH_LIFT: u16 = 12;
    pub const MATCH_FUNCTION: u16 = 13;
    pub const MATCH_FIX: u16 = 14;
}

/// A type entry; parts are numbers of entries, counted from 1.
#[derive(Clone, Copy, Debug, PartialEq, Eq, Hash)]
pub enum Type {
    Nat,
    Function(u16, u16),
    Code(u16),
}

/// The number of Nat in every table: the first entry has no earlier ones for its parts.
pub const NAT: u16 = 1;

/// The type table.
#[derive(Clone, Debug, Default)]
pub struct Types(pub Vec<Type>);

impl Types {
    pub fn get(&self, number: u16) -> Type {
        self.0[usize::from(number) - 1]
    }

    pub fn is_nat(&self, number: u16) -> bool {
        self.get(number) == Type::Nat
    }

    /// The part of a code type.
    pub fn within_code(&self, number: u16) -> Option<u16> {
        match self.get(number) {
            Type::Code(part) => Some(part),
            _ => None,
        }
    }
}

#[derive(Clone, Copy, Debug, Default, PartialEq, Eq)]
pub struct Record {
    pub kind: u16,
    pub ty: u16,
    pub a: u16,
    pub b: u16,
    pub first: u16,
    pub next: u16,
    pub value: u32,
}

impl Record {
    fn read(bytes: &[u8]) -> Record {
        let field = |i: usize| u16::from_le_bytes([bytes[2 * i], bytes[2 * i + 1]]);
        let value = u32::from(field(6)) | u32::from(field(7)) << 16;
        Record { kind: field(0), ty: field(1), a: field(2), b: field(3), first: field(4), next: field(5), value }
    }

    pub fn write(&self, bytes: &mut [u8]) {
        let fields = [self.kind, self.ty, self.a, self.b, self.first, self.next];
        for (place, field) in bytes.chunks_exact_mut(2).zip(fields) {
            place.copy_from_slice(&field.to_le_bytes());
        }
        bytes[12..RECORD_BYTES].copy_from_slice(&self.value.to_le_bytes());
    }
}

/// A program whose layout is sound.
#[derive(Debug)]
pub struct Program {
    pub types: Types,
    pub records: Vec<Record>,
}

impl Program {
    pub fn record(&self, number: u16) -> &Record {
        &self.records[usize::from(number) - 1]
    }

    /// The numbers of a record's children, in chain order.
    pub fn children(&self, number: u16) -> impl Iterator<Item = u16> + '_ {
        let link = |number: u16| (number != 0).then_some(number);
        std::iter::successors(link(self.record(number).first), move |&child| link(self.record(child).next))
    }

    /// Writes the program as it stands; gives the length.
    pub fn write(&self, output: &mut [u8]) -> usize {
        let (head, records) = output.split_at_mut(head_bytes(&self.types));
        write_head(&self.types, self.records.len(), head);
        for (bytes, record) in records.chunks_exact_mut(RECORD_BYTES).zip(&self.records) {
            record.write(bytes);
        }
        head.len() + RECORD_BYTES * self.records.len()
    }
}

/// What the type fields of a program's records are to hold.
#[derive(Clone, Copy, PartialEq, Eq)]
pub enum TypeFields {
    Entries,
    Zeros,
}

/// Reads a program, or gives the first refusal of 3 to 9, with 13 after 7 where the type fields are to be zeros.
pub fn parse(bytes: &[u8], type_fields: TypeFields) -> Result<Program, Refusal> {
    let (entries, records) = sections(bytes)?;
    let types = parse_types(entries)?;
    let records: Vec<Record> = records.chunks_exact(RECORD_BYTES).map(Record::read).collect();
    refuse_lowest(7, records.iter().map(|record| fields_fit(record, types.0.len(), type_fields)))?;
    if type_fields == TypeFields::Zeros {
        refuse_lowest(13, records.iter().map(|record| record.ty == 0))?;
    }
    refuse_lowest(8, links_fit(&records).into_iter())?;
    let program = Program { types, records };
    let numbers = 1..=program.records.len() as u16;
    refuse_lowest(9, numbers.map(|number| program.children(number).count() == child_count(program.record(number).kind)))?;
    Ok(program)
}

/// The length of the counts and the type table.
pub fn head_bytes(types: &Types) -> usize {
    HEADER_BYTES + TYPE_BYTES * types.0.len()
}

/// Writes the counts and the type table of a program of so many records.
pub fn write_head(types: &Types, records: usize, head: &mut [u8]) {
    let (counts, entries) = head.split_at_mut(HEADER_BYTES);
    counts[..2].copy_from_slice(&(types.0.len() as u16).to_le_bytes());
    counts[2..].copy_from_slice(&(records as u16).to_le_bytes());
    for (entry, ty) in entries.chunks_exact_mut(TYPE_BYTES).zip(&types.0) {
        let fields = match *ty {
            Type::Nat => [1, 0, 0],
            Type::Function(a, b) => [2, a, b],
            Type::Code(a) => [3, a, 0],
        };
        for (place, field) in entry.chunks_exact_mut(2).zip(fields) {
            place.copy_from_slice(&field.to_le_bytes());
        }
    }
}

/// Refuses the first place whose check failed.
fn refuse_lowest(number: u32, mut fits: impl Iterator<Item = bool>) -> Result<(), Refusal> {
    match fits.position(|fit| !fit) {
        Some(index) => Err(Refusal { number, place: index as u32 + 1 }),
        None => Ok(()),
    }
}

/// The bytes of the type entries and those of the records: checks 3 to 5.
fn sections(bytes: &[u8]) -> Result<(&[u8], &[u8]), Refusal> {
    let refuse = |number| Err(Refusal { number, place: 0 });
    let Some((header, rest)) = bytes.split_first_chunk::<HEADER_BYTES>() else { return refuse(3) };
    let type_count = usize::from(u16::from_le_bytes([header[0], header[1]]));
    let record_count = usize::from(u16::from_le_bytes([header[2], header[3]]));
    if !(1..=MAX_TYPES).contains(&type_count) || !(1..=MAX_RECORDS).contains(&record_count) {
        return refuse(4);
    }
    if rest.len() != TYPE_BYTES * type_count + RECORD_BYTES * record_count {
        return refuse(5);
    }
    Ok(rest.split_at(TYPE_BYTES * type_count))
}

fn parse_types(entries: &[u8]) -> Result<Types, Refusal> {
    let mut types = Vec::with_capacity(entries.len() / TYPE_BYTES);
    for (earlier, entry) in entries.chunks_exact(TYPE_BYTES).enumerate() {
        match parse_type(entry, earlier) {
            Some(ty) if !types.contains(&ty) => types.push(ty),
            _ => return Err(Refusal { number: 6, place: earlier as u32 + 1 }),
        }
    }
    Ok(Types(types))
}

fn parse_type(entry: &[u8], earlier: usize) -> Option<Type> {
    let field = |i: usize| u16::from_le_bytes([entry[2 * i], entry[2 * i + 1]]);
    let is_part = |number: u16| (1..=earlier).contains(&usize::from(number));
    match (field(0), field(1), field(2)) {
        (1, 0, 0) => Some(Type::Nat),
        (2, a, b) if is_part(a) && is_part(b) => Some(Type::Function(a, b)),
        (3, a, 0) if is_part(a) => Some(Type::Code(a)),
        _ => None,
    }
}

/// What a field a, b or value of a record holds.
enum Field {
    Unused,
    Free,
    Type,
}

/// How a kind uses a, b and value; none for a bad kind.
fn field_uses(kind: u16) -> Option<[Field; 3]> {
    use Field::{Free, Type, Unused};
    match kind {
        kind::NUMBER | kind::MATCH_NUMBER => Some([Unused, Unused, Free]),
        kind::VARIABLE | kind::MATCH_VARIABLE => Some([Free, Unused, Unused]),
        kind::FUNCTION | kind::MATCH_LIFT..=kind::MATCH_FIX => Some([Type, Unused, Unused]),
        kind::MATCH_APPLICATION => Some([Type, Type, Unused]),
        kind::APPLICATION..=kind::SPLICE => Some([Unused, Unused, Unused]),
        _ => None,
    }
}

/// Kind, a, b and value, and the type field where it is to name an entry.
fn fields_fit(record: &Record, type_count: usize, type_fields: TypeFields) -> bool {
    let is_type = |number: u32| number != 0 && number as usize <= type_count;
    if type_fields == TypeFields::Entries && !is_type(record.ty.into()) {
        return false;
    }
    let Some(uses) = field_uses(record.kind) else { return false };
    let fits = |(field, content): (Field, u32)| match field {
        Field::Unused => content == 0,
        Field::Free => true,
        Field::Type => is_type(content),
    };
    uses.into_iter().zip([record.a.into(), record.b.into(), record.value]).all(fits)
}

/// For each record: it holds no bad link and, the root apart, is named exactly once.
fn links_fit(records: &[Record]) -> Vec<bool> {
    let mut fits = vec![true; records.len()];
    let mut named = vec![0_u32; records.len()];
    for (index, record) in records.iter().enumerate() {
        for (link, allowed) in [(usize::from(record.first), true), (usize::from(record.next), index != 0)] {
            if link == 0 {
                continue;
            }
            if allowed && link > index + 1 && link <= records.len() {
                named[link - 1] += 1;
            } else {
                fits[index] = false;
            }
        }
    }
    for (fit, count) in fits.iter_mut().zip(named).skip(1) {
        *fit &= count == 1;
    }
    fits
}

pub fn child_count(kind: u16) -> usize {
    match kind {
        kind::NUMBER | kind::VARIABLE => 0,
        kind::APPLICATION => 2,
        kind::FUNCTION | kind::FIX..=kind::SPLICE => 1,
        _ => 3,
    }
}
