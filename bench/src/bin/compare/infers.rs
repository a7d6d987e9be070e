//! Infer of one program by both engines, and what check and run say of the program that it writes.
use crate::buffers::{Buffers, Lent};
use crate::summary::Row;
use bench::generate::untyped;
use bench::muntinyarrow;
use bench::programs::stated_records;
use bench::random::Random;
use bench::reference::format::MAX_TYPES;
use bench::reference::{self, Inferred, Passed, Refusal, OUTPUT, WORK};

const FIRST: u64 = 1 << 32; // infer's inputs are numbered from here on, so that they are others than run's

/// One call of infer, which depends on the seed and the input's number alone.
pub struct Case {
    pub program: Vec<u8>,
    pub lent: Lent,
}

impl Case {
    pub fn new(seed: u64, input: u64) -> Case {
        let mut random = Random::of_input(seed, FIRST + input);
        Case { program: untyped::program(&mut random), lent: Lent::new(&mut random) }
    }
}

/// Calls both engines; the error says how their answers differ, or what is wrong with the program that both write.
pub fn compare(case: &Case, buffers: &mut Buffers, seen: &mut Seen) -> Result<(), String> {
    buffers.fill(&case.lent);
    let inferred = reference::infer(&case.program, &mut buffers.reference_output, &mut buffers.reference_work);
    let engine_inferred = muntinyarrow::infer(&case.program, &mut buffers.output, &mut buffers.work);
    seen.add(&case.program, &inferred, &buffers.reference_output);
    if engine_inferred != inferred {
        return Err(format!("infer: engine {engine_inferred:?}, reference {inferred:?}"));
    }
    let written = inferred.ok().map(|inferred| inferred.written);
    buffers.agree(written).map_err(|what| format!("infer: {what}"))?;
    match inferred {
        Ok(inferred) => passes(&case.program, &buffers.output[..inferred.written], &inferred),
        Err(_) => Ok(()),
    }
}

/// The written program is passed by check with the same root type and as many records, and a run of fuel 0 writes the same bytes.
fn passes(program: &[u8], written: &[u8], inferred: &Inferred) -> Result<(), String> {
    let passed = muntinyarrow::check(written);
    if passed != Ok(Passed { root_type: inferred.root_type, records: stated_records(program) as u32 }) {
        return Err(format!("infer: {inferred:?}, but check of what it wrote says {passed:?}"));
    }
    let mut output = [0; OUTPUT];
    let ran = muntinyarrow::run(written, 0, &mut output, &mut [0; WORK]);
    if !ran.is_ok_and(|ran| output[..ran.written] == *written) {
        return Err(format!("infer: {inferred:?}, but a run of fuel 0 writes other bytes; {ran:?}"));
    }
    Ok(())
}

/// What has come up so far, by the reference's answers.
#[derive(Default)]
pub struct Seen {
    inputs: u64,
    typed: u64,
    appended: u64,
    filled: u64,
    refusals: [u64; 15],
    longest: u32,
}

impl Seen {
    fn add(&mut self, program: &[u8], inferred: &Result<Inferred, Refusal>, output: &[u8]) {
        self.inputs += 1;
        if let Err(refusal) = inferred {
            self.refusals[refusal.number as usize] += 1;
            return;
        }
        let types = |program: &[u8]| u16::from_le_bytes([program[0], program[1]]);
        self.typed += 1;
        self.appended += u64::from(types(output) > types(program));
        self.filled += u64::from(usize::from(types(output)) == MAX_TYPES && types(program) < types(output));
        self.longest = self.longest.max(stated_records(output) as u32);
    }

    pub fn rows(&self) -> Vec<Row> {
        let counts = [("inputs", self.inputs), ("typed", self.typed), ("entries appended", self.appended), ("up to the limit", self.filled)];
        let mut rows: Vec<Row> = counts.map(|(name, count)| Row::wanted(format!("infer: {name}"), count)).into();
        rows.extend((1..=14).map(|number| Row::wanted(format!("infer: refused {number}"), self.refusals[number])));
        rows.push(Row::new("infer: longest term", self.longest.into()));
        rows
    }
}
