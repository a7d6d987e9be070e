//! What the benchmarks run and check, each with the answer that is expected of it.
mod checks;
mod generators;
mod infers;
mod redexes;
mod trees;

use crate::muntinyarrow::Ending;
use crate::programs::untyped;

/// Which call a workload makes of each of its programs. A short run lends an output that is one byte too short.
#[derive(Clone, Copy, Debug, PartialEq, Eq)]
pub enum Call {
    Check,
    Infer,
    Run,
    ShortRun,
}

/// The expected answer. Steps are those of all programs of the workload together; every program has the same ending, or typed the same length.
#[derive(Clone, Copy, Debug, PartialEq, Eq)]
pub enum Expected {
    Passed,
    Inferred { written: usize },
    Ended { ending: Ending, steps: u32 },
    Refused { number: u32, place: u32 },
}

pub struct Workload {
    pub name: &'static str,
    pub programs: Vec<Vec<u8>>,
    pub fuel: u32,
    pub call: Call,
    pub expected: Expected,
}

impl Workload {
    fn run(name: &'static str, program: Vec<u8>, fuel: u32, ending: Ending, steps: u32) -> Workload {
        Workload { name, programs: vec![program], fuel, call: Call::Run, expected: Expected::Ended { ending, steps } }
    }

    fn check(name: &'static str, program: Vec<u8>) -> Workload {
        Workload { name, programs: vec![program], fuel: 0, call: Call::Check, expected: Expected::Passed }
    }

    /// Infer of a typed program without its types, under the first so many entries of its table, of which it uses each.
    fn infer(name: &'static str, typed: &[u8], types: u16) -> Workload {
        let expected = Expected::Inferred { written: typed.len() };
        Workload { name, programs: vec![untyped(typed, types)], fuel: 0, call: Call::Infer, expected }
    }

    fn refused(name: &'static str, program: Vec<u8>, number: u32, place: u32) -> Workload {
        Workload { name, programs: vec![program], fuel: 0, call: Call::Check, expected: Expected::Refused { number, place } }
    }
}

/// All workloads: runs of small redexes, runs of generators, checks, refusals, infers.
pub fn all() -> Vec<Workload> {
    [redexes::all(), generators::all(), checks::all(), infers::all()].into_iter().flatten().collect()
}
