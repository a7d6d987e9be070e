//! Muntinyarrow for Rust: a safe wrapper of libengine.a. Any slices may be given; the engine looks at their lengths itself.
//! The calls keep no state: any number of them may go on at once, each with its own buffers.
#![allow(dead_code)] // a program need not make every call

/// The buffers that infer and run are lent have at least these lengths; shorter ones are refused, by 1 and 2.
pub const OUTPUT: usize = 34_308;
pub const WORK: usize = 65_536;

/// The number of a refusal, 1 to 12 of document 01 and infer's 13 and 14 of document 02, and its place.
#[derive(Clone, Copy, Debug, PartialEq, Eq)]
pub struct Refusal {
    pub number: u32,
    pub place: u32,
}

/// What check says of a program that is passed.
#[derive(Clone, Copy, Debug, PartialEq, Eq)]
pub struct Passed {
    pub root_type: u32,
    pub records: u32,
}

/// What infer answers for a program that it types: `written` is the length of the typed program at the start of the output, and `root_type` an
/// entry of its table.
#[derive(Clone, Copy, Debug, PartialEq, Eq)]
pub struct Inferred {
    pub root_type: u32,
    pub written: usize,
}

#[derive(Clone, Copy, Debug, PartialEq, Eq)]
pub enum Ending {
    Value,
    Spent,
    Full,
}

/// What an accepted run answers: `written` is the length of the program at the start of the output, and `replaced` how many variable records gave way
/// to what replaced them, in all the steps.
#[derive(Clone, Copy, Debug, PartialEq, Eq)]
pub struct Ran {
    pub ending: Ending,
    pub steps: u32,
    pub root_type: u32,
    pub written: usize,
    pub replaced: u64,
}

/// Checks a program of any bytes.
pub fn check(program: &[u8]) -> Result<Passed, Refusal> {
    // SAFETY: pointer and length are those of a slice that is borrowed during the call, which only reads it.
    let answer = unsafe { muntinyarrow_check(program.as_ptr(), program.len()) };
    if answer.number != 0 {
        return Err(Refusal { number: answer.number, place: answer.place });
    }
    Ok(Passed { root_type: answer.root_type, records: answer.records })
}

/// Types a program of any bytes, whose type fields are all 0 and whose binders' types are given. Output beyond the written length stays, and both
/// buffers do where the call is refused. The first 65,536 bytes of the work buffer are then free.
#[inline]
pub fn infer(program: &[u8], output: &mut [u8], work: &mut [u8]) -> Result<Inferred, Refusal> {
    // SAFETY: each pointer and length are those of a slice; the two that are written are borrowed mutably, and so are apart from all others.
    let answer = unsafe {
        muntinyarrow_infer(program.as_ptr(), program.len(), output.as_mut_ptr(), output.len(), work.as_mut_ptr(), work.len())
    };
    if answer.number != 0 {
        return Err(Refusal { number: answer.number, place: answer.place });
    }
    Ok(Inferred { root_type: answer.root_type, written: answer.written as usize })
}

/// Runs a program of any bytes with the fuel. Output beyond the written length stays, and both buffers do where the run is refused.
/// The first 65,536 bytes of the work buffer are then free.
#[inline]
pub fn run(program: &[u8], fuel: u32, output: &mut [u8], work: &mut [u8]) -> Result<Ran, Refusal> {
    // SAFETY: each pointer and length are those of a slice; the two that are written are borrowed mutably, and so are apart from all others.
    let answer = unsafe {
        muntinyarrow_run(program.as_ptr(), program.len(), fuel, output.as_mut_ptr(), output.len(), work.as_mut_ptr(), work.len())
    };
    if answer.number != 0 {
        return Err(Refusal { number: answer.number, place: answer.place });
    }
    let ending = match answer.ending {
        1 => Ending::Value,
        2 => Ending::Spent,
        _ => Ending::Full,
    };
    Ok(Ran { ending, steps: answer.steps, root_type: answer.root_type, written: answer.written as usize, replaced: answer.replaced })
}

#[repr(C)]
struct CheckAnswer {
    number: u32,
    place: u32,
    root_type: u32,
    records: u32,
}

#[repr(C)]
struct InferAnswer {
    number: u32,
    place: u32,
    root_type: u32,
    written: u32,
}

#[repr(C)]
struct RunAnswer {
    number: u32,
    place: u32,
    ending: u32,
    steps: u32,
    root_type: u32,
    written: u32,
    replaced: u64,
}

extern "C" {
    fn muntinyarrow_check(program: *const u8, length: usize) -> CheckAnswer;
    fn muntinyarrow_infer(
        program: *const u8,
        length: usize,
        output: *mut u8,
        output_length: usize,
        work: *mut u8,
        work_length: usize,
    ) -> InferAnswer;
    fn muntinyarrow_run(
        program: *const u8,
        length: usize,
        fuel: u32,
        output: *mut u8,
        output_length: usize,
        work: *mut u8,
        work_length: usize,
    ) -> RunAnswer;
}
