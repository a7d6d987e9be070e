//! workloads FOLDER [PART]: writes each workload whose name has PART in it to a file of FOLDER, in the form that bench/pairs reads: the call, the fuel, the
//! steps of all programs together or 0, the name, and the programs, each after its length. Numbers have four bytes.
use bench::muntinyarrow::OUTPUT;
use bench::workloads::{self, Call, Expected, Workload};
use std::path::Path;

fn numbers(values: &[usize]) -> Vec<u8> {
    values.iter().flat_map(|&value| (value as u32).to_le_bytes()).collect()
}

/// The call, by its number, and the length of the output that it is lent.
fn call(workload: &Workload) -> [usize; 2] {
    match workload.call {
        Call::Check => [0, 0],
        Call::Infer => [1, OUTPUT],
        Call::Run => [2, OUTPUT],
        Call::ShortRun => [2, OUTPUT - 1],
    }
}

fn bytes(workload: &Workload) -> Vec<u8> {
    let steps = match workload.expected {
        Expected::Ended { steps, .. } => steps as usize,
        _ => 0,
    };
    let mut bytes = numbers(&call(workload));
    bytes.extend(numbers(&[workload.fuel as usize, steps, workload.name.len()]));
    bytes.extend(workload.name.bytes());
    bytes.extend(numbers(&[workload.programs.len()]));
    for program in &workload.programs {
        bytes.extend(numbers(&[program.len()]));
        bytes.extend(program);
    }
    bytes
}

fn main() -> std::io::Result<()> {
    let arguments: Vec<String> = std::env::args().skip(1).collect();
    let folder = arguments.first().expect("a folder is named");
    let part = arguments.get(1).cloned().unwrap_or_default();
    for (number, workload) in workloads::all().iter().enumerate() {
        if workload.name.contains(&part) {
            std::fs::write(Path::new(folder).join(format!("{number:02}")), bytes(workload))?;
        }
    }
    Ok(())
}
