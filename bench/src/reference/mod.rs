//! An engine for document 01, written from its text: an owned tree that is rewritten in place. Infer and the total of the replaced
//! variables are from document 02's N1 and N2.
pub mod format;
mod inference;
pub mod judging;
mod run;
mod steps;
mod substitution;
mod term;
#[cfg(test)]
mod tests;
mod typing;

/// The form of an answer, and no more, is shared with the engine that this one is compared with.
pub use crate::muntinyarrow::{Ending, Inferred, Passed, Ran, Refusal};
use format::{Program, TypeFields};

/// The buffers of infer and run have at least these lengths.
pub const OUTPUT: usize = 34_308;
pub const WORK: usize = 65_536;

/// Checks a program: refusals 3 to 12.
pub fn check(program: &[u8]) -> Result<Passed, Refusal> {
    let program = accept(program)?;
    Ok(Passed { root_type: program.record(1).ty.into(), records: program.records.len() as u32 })
}

/// Types a program whose type fields are 0 and writes it in preorder. Of the work buffer only the length matters.
pub fn infer(program: &[u8], output: &mut [u8], work: &mut [u8]) -> Result<Inferred, Refusal> {
    buffers_fit(output, work)?;
    let program = format::parse(program, TypeFields::Zeros)?;
    let typed = inference::infer(&program)?;
    Ok(Inferred { root_type: typed.record(1).ty.into(), written: typed.write(output) })
}

/// Runs a program with the fuel and writes the last term. Of the work buffer only the length matters.
pub fn run(program: &[u8], fuel: u32, output: &mut [u8], work: &mut [u8]) -> Result<Ran, Refusal> {
    buffers_fit(output, work)?;
    let program = accept(program)?;
    Ok(run::run(&program, fuel, output))
}

/// Refusals 1 and 2.
fn buffers_fit(output: &[u8], work: &[u8]) -> Result<(), Refusal> {
    if output.len() < OUTPUT {
        return Err(Refusal { number: 1, place: 0 });
    }
    if work.len() < WORK {
        return Err(Refusal { number: 2, place: 0 });
    }
    Ok(())
}

fn accept(program: &[u8]) -> Result<Program, Refusal> {
    let program = format::parse(program, TypeFields::Entries)?;
    typing::check(&program)?;
    Ok(program)
}
