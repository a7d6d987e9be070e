//! Check and run of one program by both engines.
use crate::buffers::{Buffers, Lent};
use crate::summary::Row;
use bench::random::Random;
use bench::reference::{self, Ending, Passed, Ran, Refusal, OUTPUT, WORK};
use bench::{generate, muntinyarrow};

/// One call of run, which depends on the seed and the input's number alone.
pub struct Case {
    pub program: Vec<u8>,
    pub fuel: u32,
    lent: Lent,
}

impl Case {
    pub fn new(seed: u64, input: u64) -> Case {
        let mut random = Random::of_input(seed, input);
        let program = generate::program(&mut random);
        let fuel = fuel(&program, &mut random);
        Case { program, fuel, lent: Lent::new(&mut random) }
    }
}

/// A fuel around the steps of the whole run where these are few enough, and any fuel up to the limit where not.
fn fuel(program: &[u8], random: &mut Random) -> u32 {
    let limit = match program.len() {
        0..=1_700 => 3_000,
        1_701..=8_000 => 2_000,
        _ => 600,
    };
    let Ok(ran) = reference::run(program, limit, &mut [0; OUTPUT], &mut [0; WORK]) else { return random.below(10) as u32 };
    let steps = ran.steps;
    let small = random.below(50) as u32;
    let within = random.below(steps as usize + 1) as u32;
    let fuels = match ran.ending {
        Ending::Spent => [0, 1, 2, small, within, limit, limit.min(1_000), limit - 1, within],
        _ => [0, 1, 2, within, steps.saturating_sub(1), steps, steps + 1, 1_000, u32::MAX],
    };
    fuels[random.weighted(&[2, 2, 2, 3, 4, 8, 6, 4, 8])]
}

/// Calls both engines; the error says how their answers differ.
pub fn compare(case: &Case, buffers: &mut Buffers, seen: &mut Seen) -> Result<(), String> {
    let passed = reference::check(&case.program);
    let engine_passed = muntinyarrow::check(&case.program);
    buffers.fill(&case.lent);
    let ran = reference::run(&case.program, case.fuel, &mut buffers.reference_output, &mut buffers.reference_work);
    let engine_ran = muntinyarrow::run(&case.program, case.fuel, &mut buffers.output, &mut buffers.work);
    seen.add(&passed, &ran, &buffers.reference_output);
    if engine_passed != passed {
        return Err(format!("check: engine {engine_passed:?}, reference {passed:?}"));
    }
    if engine_ran != ran {
        return Err(format!("run with fuel {}: engine {engine_ran:?}, reference {ran:?}", case.fuel));
    }
    let written = ran.ok().map(|ran| ran.written);
    buffers.agree(written).map_err(|what| format!("run with fuel {}: {what}", case.fuel))
}

/// What has come up so far, by the reference's answers.
#[derive(Default)]
pub struct Seen {
    inputs: u64,
    passed: u64,
    refusals: [u64; 13],
    endings: [u64; 3],
    steps: u64,
    replaced: u64,
    longest: u32,
}

impl Seen {
    fn add(&mut self, passed: &Result<Passed, Refusal>, ran: &Result<Ran, Refusal>, output: &[u8]) {
        self.inputs += 1;
        if let Ok(passed) = passed {
            self.passed += 1;
            self.longest = self.longest.max(passed.records);
        }
        match ran {
            Ok(ran) => {
                self.endings[ran.ending as usize] += 1;
                self.steps += u64::from(ran.steps);
                self.replaced += ran.replaced;
                self.longest = self.longest.max(u16::from_le_bytes([output[2], output[3]]).into());
            }
            Err(refusal) => self.refusals[refusal.number as usize] += 1,
        }
    }

    pub fn rows(&self) -> Vec<Row> {
        let endings = ["value", "spent", "full"].into_iter().zip(self.endings).map(|(name, count)| Row::wanted(name, count));
        let refusals = (1..=12).map(|number| Row::wanted(format!("refused {number}"), self.refusals[number]));
        let mut rows = vec![Row::new("inputs", self.inputs), Row::new("passed", self.passed)];
        rows.extend(refusals.chain(endings));
        rows.extend([Row::new("steps made", self.steps), Row::wanted("variables replaced", self.replaced), Row::new("longest term", self.longest.into())]);
        rows
    }
}
