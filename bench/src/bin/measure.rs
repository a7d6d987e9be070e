//! Times both engines side by side and prints three tables: runs by the step; checks, infers and refusals by the call; and what infer takes beside
//! the check of what it writes.
//! Arguments, both optional: a part of the workloads' names; `ours`, to leave the other engine out.
use bench::muntinyarrow::{self, Inferred, Passed, Ran, Refusal, OUTPUT, WORK};
use bench::programs::stated_records;
use bench::reference;
use bench::workloads::{self, Call, Expected, Workload};
use std::hint::black_box;
use std::time::{Duration, Instant};

const SAMPLES: usize = 15;
const SAMPLE_TIME: Duration = Duration::from_millis(10);
const STACK: usize = 256 << 20;
/// What buffers hold before the engines are compared, so that bytes beyond the written ones are seen to stay.
const UNTOUCHED: u8 = 0xA5;

/// The answer of either engine to any call.
#[derive(Clone, Copy, Debug, PartialEq, Eq)]
enum Answer {
    Passed(Passed),
    Inferred(Inferred),
    Ran(Ran),
    Refused(Refusal),
}

trait Engine {
    fn check(program: &[u8]) -> Answer;
    fn infer(program: &[u8], output: &mut [u8], work: &mut [u8]) -> Answer;
    fn run(program: &[u8], fuel: u32, output: &mut [u8], work: &mut [u8]) -> Answer;
}

struct Ours;
struct Theirs;

impl Engine for Ours {
    fn check(program: &[u8]) -> Answer {
        checked(muntinyarrow::check(program))
    }

    fn infer(program: &[u8], output: &mut [u8], work: &mut [u8]) -> Answer {
        inferred(muntinyarrow::infer(program, output, work))
    }

    fn run(program: &[u8], fuel: u32, output: &mut [u8], work: &mut [u8]) -> Answer {
        ran(muntinyarrow::run(program, fuel, output, work))
    }
}

impl Engine for Theirs {
    fn check(program: &[u8]) -> Answer {
        checked(reference::check(program))
    }

    fn infer(program: &[u8], output: &mut [u8], work: &mut [u8]) -> Answer {
        inferred(reference::infer(program, output, work))
    }

    fn run(program: &[u8], fuel: u32, output: &mut [u8], work: &mut [u8]) -> Answer {
        ran(reference::run(program, fuel, output, work))
    }
}

fn checked(answer: Result<Passed, Refusal>) -> Answer {
    answer.map_or_else(Answer::Refused, Answer::Passed)
}

fn inferred(answer: Result<Inferred, Refusal>) -> Answer {
    answer.map_or_else(Answer::Refused, Answer::Inferred)
}

fn ran(answer: Result<Ran, Refusal>) -> Answer {
    answer.map_or_else(Answer::Refused, Answer::Ran)
}

struct Buffers {
    output: Vec<u8>,
    work: Vec<u8>,
}

impl Buffers {
    fn new() -> Buffers {
        Buffers { output: vec![UNTOUCHED; OUTPUT], work: vec![UNTOUCHED; WORK] }
    }
}

fn call<E: Engine>(workload: &Workload, program: &[u8], buffers: &mut Buffers) -> Answer {
    match workload.call {
        Call::Check => E::check(program),
        Call::Infer => E::infer(program, &mut buffers.output, &mut buffers.work),
        Call::Run => E::run(program, workload.fuel, &mut buffers.output, &mut buffers.work),
        Call::ShortRun => E::run(program, workload.fuel, &mut buffers.output[..OUTPUT - 1], &mut buffers.work),
    }
}

/// What is known of a workload before it is timed: its steps, of all programs together, and the records of the largest first or last term.
struct Size {
    steps: u32,
    records: usize,
}

/// Calls ours on each program, and theirs too if it takes part: stops where the answers, or any byte of the outputs, differ.
fn answers(workload: &Workload, both: bool) -> (Vec<Answer>, Size) {
    let (mut given, mut size) = (Vec::new(), Size { steps: 0, records: 0 });
    let (mut buffers, mut other) = (Buffers::new(), Buffers::new());
    for (place, program) in workload.programs.iter().enumerate() {
        buffers.output.fill(UNTOUCHED);
        let answer = call::<Ours>(workload, program, &mut buffers);
        if both {
            other.output.fill(UNTOUCHED);
            let theirs = call::<Theirs>(workload, program, &mut other);
            assert_eq!(answer, theirs, "{}, program {place}: ours and theirs differ", workload.name);
            assert!(buffers.output == other.output, "{}, program {place}: the written bytes differ", workload.name);
        }
        size.records = size.records.max(stated_records(program));
        if let Answer::Ran(ran) = answer {
            size.steps += ran.steps;
            size.records = size.records.max(stated_records(&buffers.output));
        }
        given.push(answer);
    }
    (given, size)
}

/// Stops where an answer isn't the one that the workload expects.
fn expect(workload: &Workload, given: &[Answer], size: &Size) {
    for answer in given {
        let good = match (workload.expected, *answer) {
            (Expected::Passed, Answer::Passed(_)) => true,
            (Expected::Inferred { written }, Answer::Inferred(inferred)) => inferred.written == written,
            (Expected::Ended { ending, .. }, Answer::Ran(ran)) => ran.ending == ending,
            (Expected::Refused { number, place }, Answer::Refused(refusal)) => refusal == Refusal { number, place },
            _ => false,
        };
        assert!(good, "{}: expected {:?}, but the answer is {answer:?}", workload.name, workload.expected);
    }
    if let Expected::Ended { steps, .. } = workload.expected {
        assert_eq!(size.steps, steps, "{}: steps made, steps expected", workload.name);
    }
}

/// The time of so many passes over the workload's programs.
fn time<E: Engine>(workload: &Workload, passes: u32, buffers: &mut Buffers) -> Duration {
    let start = Instant::now();
    for _ in 0..passes {
        for program in &workload.programs {
            black_box(call::<E>(workload, black_box(program), buffers));
        }
    }
    start.elapsed()
}

/// How many passes make a sample long enough.
fn passes<E: Engine>(workload: &Workload, buffers: &mut Buffers) -> u32 {
    let mut passes = 1;
    while time::<E>(workload, passes, buffers) < SAMPLE_TIME {
        passes *= 2;
    }
    passes
}

/// Medians of nanoseconds for one pass over the workload's programs.
struct Timing {
    ours: f64,
    theirs: Option<f64>,
}

fn timing(workload: &Workload, both: bool) -> Timing {
    let mut buffers = Buffers::new();
    let our_passes = passes::<Ours>(workload, &mut buffers);
    let their_passes = if both { passes::<Theirs>(workload, &mut buffers) } else { 0 };
    let (mut ours, mut theirs) = (Vec::new(), Vec::new());
    for _ in 0..SAMPLES {
        ours.push(time::<Ours>(workload, our_passes, &mut buffers).as_nanos() as f64 / f64::from(our_passes));
        if both {
            theirs.push(time::<Theirs>(workload, their_passes, &mut buffers).as_nanos() as f64 / f64::from(their_passes));
        }
    }
    Timing { ours: median(ours), theirs: both.then(|| median(theirs)) }
}

fn median(mut samples: Vec<f64>) -> f64 {
    samples.sort_by(f64::total_cmp);
    samples[samples.len() / 2]
}

/// A cell of a table: a figure with as many decimals as are asked for, or a dash where theirs is left out.
fn cell(figure: Option<f64>, decimals: usize) -> String {
    figure.map_or_else(|| "-".to_string(), |figure| format!("{figure:.decimals$}"))
}

fn run_row(workload: &Workload, size: &Size, timing: &Timing) -> String {
    let (name, steps, records) = (workload.name, f64::from(size.steps), size.records);
    let by_step = |pass: f64| pass / steps;
    let by_record = |pass: f64| pass / steps / records as f64;
    let (ours, theirs) = (cell(Some(by_step(timing.ours)), 1), cell(timing.theirs.map(by_step), 1));
    let (our_record, their_record) = (cell(Some(by_record(timing.ours)), 3), cell(timing.theirs.map(by_record), 3));
    let ratio = cell(timing.theirs.map(|theirs| timing.ours / theirs), 2);
    format!("| {name} | {steps} | {records} | {ours} | {theirs} | {our_record} | {their_record} | {ratio} |")
}

fn call_row(workload: &Workload, size: &Size, timing: &Timing) -> String {
    let (name, calls, records) = (workload.name, workload.programs.len() as f64, size.records);
    let (ours, theirs) = (cell(Some(timing.ours / calls), 1), cell(timing.theirs.map(|pass| pass / calls), 1));
    let our_record = cell(Some(timing.ours / calls / records as f64), 3);
    let ratio = cell(timing.theirs.map(|theirs| timing.ours / theirs), 2);
    format!("| {name} | {records} | {ours} | {theirs} | {our_record} | {ratio} |")
}

/// The check of what infer writes for a workload.
fn check_of(workload: &Workload) -> Workload {
    let typed = |program: &Vec<u8>| {
        let mut buffers = Buffers::new();
        let Answer::Inferred(inferred) = call::<Ours>(workload, program, &mut buffers) else { unreachable!("the answer is known") };
        buffers.output[..inferred.written].to_vec()
    };
    Workload { programs: workload.programs.iter().map(typed).collect(), call: Call::Check, expected: Expected::Passed, ..*workload }
}

fn infer_row(workload: &Workload, size: &Size, infer: &Timing) -> String {
    let (name, calls, records) = (workload.name, workload.programs.len() as f64, size.records);
    let check = timing(&check_of(workload), false);
    let ratio = cell(Some(infer.ours / check.ours), 2);
    let [infer, check] = [infer.ours, check.ours].map(|pass| cell(Some(pass / calls), 1));
    format!("| {name} | {records} | {infer} | {check} | {ratio} |")
}

fn processor() -> String {
    let text = std::fs::read_to_string("/proc/cpuinfo").unwrap_or_default();
    let line = text.lines().find(|line| line.starts_with("model name"));
    line.and_then(|line| line.split(": ").nth(1)).unwrap_or("unknown").to_string()
}

fn measure(part: &str, both: bool) {
    println!("Processor: {}; medians of {SAMPLES} samples. Records are those of the first or the last term, whichever has more.", processor());
    let (mut runs, mut calls, mut infers) = (Vec::new(), Vec::new(), Vec::new());
    for workload in workloads::all().iter().filter(|workload| workload.name.contains(part)) {
        let (given, size) = answers(workload, both);
        expect(workload, &given, &size);
        let timing = timing(workload, both);
        match workload.expected {
            Expected::Ended { .. } => runs.push(run_row(workload, &size, &timing)),
            _ => calls.push(call_row(workload, &size, &timing)),
        }
        if let Expected::Inferred { .. } = workload.expected {
            infers.push(infer_row(workload, &size, &timing));
        }
    }
    assert!(!runs.is_empty() || !calls.is_empty(), "no workload has {part:?} in its name");
    println!("\n| run | steps | records | ours ns/step | theirs ns/step | ours ns/record/step | theirs ns/record/step | ours/theirs |");
    println!("|---|---|---|---|---|---|---|---|\n{}", runs.join("\n"));
    println!("\n| check, infer or refusal | records | ours ns/call | theirs ns/call | ours ns/record | ours/theirs |");
    println!("|---|---|---|---|---|---|\n{}", calls.join("\n"));
    println!("\n| ours | records | infer ns/call | check ns/call of what it writes | infer/check |");
    println!("|---|---|---|---|---|\n{}", infers.join("\n"));
}

fn main() {
    let arguments: Vec<String> = std::env::args().skip(1).collect();
    let part = arguments.first().cloned().unwrap_or_default();
    let both = arguments.get(1).map(String::as_str) != Some("ours");
    let thread = std::thread::Builder::new().stack_size(STACK).spawn(move || measure(&part, both));
    if thread.expect("a thread with a large stack").join().is_err() {
        std::process::exit(1);
    }
}
