//! The calls keep no state: calls that go on at once, each with its own buffers, answer and write what they do one after another.
use bench::generate::{self, untyped};
use bench::muntinyarrow::{check, infer, run, Inferred, Passed, Ran, Refusal, OUTPUT, WORK};
use bench::random::Random;

const THREADS: u64 = 4;
const INPUTS: u64 = 300;
const FUEL: u32 = 200;
const STACK: usize = 1 << 20; // what README.md says a thread should have

#[derive(PartialEq, Eq)]
struct Answers {
    passed: Result<Passed, Refusal>,
    ran: Result<Ran, Refusal>,
    inferred: Result<Inferred, Refusal>,
    written: [Vec<u8>; 2],
}

fn answers(seed: u64) -> Vec<Answers> {
    let (mut output, mut work) = (vec![0; OUTPUT], vec![0; WORK]);
    let mut one = |(program, untyped): (Vec<u8>, Vec<u8>)| {
        let ran = run(&program, FUEL, &mut output, &mut work);
        let last_term = output[..ran.map_or(0, |ran| ran.written)].to_vec();
        let inferred = infer(&untyped, &mut output, &mut work);
        let typed = output[..inferred.map_or(0, |inferred| inferred.written)].to_vec();
        Answers { passed: check(&program), ran, inferred, written: [last_term, typed] }
    };
    programs(seed).into_iter().map(&mut one).collect()
}

/// Programs for check and run, each with one for infer. The generator recurses over terms, and so has a stack of its own.
fn programs(seed: u64) -> Vec<(Vec<u8>, Vec<u8>)> {
    let pair = move |input| {
        let mut random = Random::of_input(seed, input);
        (generate::program(&mut random), untyped::program(&mut random))
    };
    let make = move || (0..INPUTS).map(pair).collect();
    std::thread::Builder::new().stack_size(256 << 20).spawn(make).expect("a thread can be started").join().expect("programs are made")
}

#[test]
fn calls_at_once_answer_as_calls_one_after_another() {
    let alone: Vec<Vec<Answers>> = (0..THREADS).map(answers).collect();
    let start = |seed| std::thread::Builder::new().stack_size(STACK).spawn(move || answers(seed)).expect("a thread can be started");
    let threads: Vec<_> = (0..THREADS).map(start).collect();
    for (thread, alone) in threads.into_iter().zip(alone) {
        assert!(thread.join().expect("no call fails") == alone);
    }
}
