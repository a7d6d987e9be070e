//! compare [SEED [COUNT]]: gives generated inputs to the engine and to the reference, COUNT to check and run and COUNT others to infer, and compares
//! all that they answer and write.
mod buffers; // what calls are lent
mod infers; // infer
mod runs; // check and run
mod summary; // what has come up

use buffers::Buffers;
use std::path::Path;
use std::process::ExitCode;
use summary::Row;

const STACK: usize = 256 << 20; // the reference recurses over terms
const MOST_MISMATCHES: u32 = 10;

fn main() -> ExitCode {
    let mut arguments = std::env::args().skip(1).map(|argument| argument.parse::<u64>());
    let (Ok(seed), Ok(count), None) = (arguments.next().unwrap_or(Ok(1)), arguments.next().unwrap_or(Ok(100_000)), arguments.next()) else {
        eprintln!("usage: compare [SEED [COUNT]]");
        return ExitCode::FAILURE;
    };
    let worker = std::thread::Builder::new().stack_size(STACK).spawn(move || compare_all(seed, count));
    match worker.expect("a thread can be started").join() {
        Ok(true) => ExitCode::SUCCESS,
        _ => ExitCode::FAILURE,
    }
}

/// Compares all inputs of a seed and prints the summary; says whether all is well.
fn compare_all(seed: u64, count: u64) -> bool {
    let mut comparison = Comparison::default();
    for input in 0..count {
        comparison.run(seed, input);
        comparison.infer(seed, input);
        if comparison.mismatches >= MOST_MISMATCHES {
            break;
        }
    }
    let rows: Vec<Row> = comparison.runs.rows().into_iter().chain(comparison.infers.rows()).collect();
    print!("{}", summary::table(&rows, comparison.mismatches));
    comparison.mismatches == 0 && !rows.iter().any(Row::is_missing)
}

#[derive(Default)]
struct Comparison {
    buffers: Buffers,
    runs: runs::Seen,
    infers: infers::Seen,
    mismatches: u32,
}

impl Comparison {
    fn run(&mut self, seed: u64, input: u64) {
        let case = runs::Case::new(seed, input);
        if let Err(what) = runs::compare(&case, &mut self.buffers, &mut self.runs) {
            let bytes = [&case.fuel.to_le_bytes()[..], &case.program].concat();
            self.mismatch(&keep(&format!("mismatch-{seed}-{input}.bin"), &bytes), &what);
        }
    }

    fn infer(&mut self, seed: u64, input: u64) {
        let case = infers::Case::new(seed, input);
        if let Err(what) = infers::compare(&case, &mut self.buffers, &mut self.infers) {
            let what = format!("{what}; --output {} --work {}", case.lent.output, case.lent.work);
            self.mismatch(&keep(&format!("mismatch-infer-{seed}-{input}.bin"), &case.program), &what);
        }
    }

    fn mismatch(&mut self, kept: &str, what: &str) {
        self.mismatches += 1;
        println!("{kept}: {what}");
    }
}

/// Writes a case's input: for run in the form that the listing program reads, for infer the program. Gives the file's name.
fn keep(name: &str, bytes: &[u8]) -> String {
    let folder = Path::new(env!("CARGO_MANIFEST_DIR")).join("../target/bench");
    match std::fs::create_dir_all(&folder).and_then(|()| std::fs::write(folder.join(name), bytes)) {
        Ok(()) => format!("target/bench/{name}"),
        Err(error) => format!("{name} ({error})"),
    }
}
