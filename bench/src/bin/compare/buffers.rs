//! The buffers that calls are lent: their lengths, what they hold before, and what of it has to stay.
use bench::random::Random;
use bench::reference::{OUTPUT, WORK};

const EXTRA: usize = 100; // bytes by which a buffer may be longer than needed

/// The lengths of one call's buffers, mostly enough, and what their first bytes depend on.
pub struct Lent {
    pub output: usize,
    pub work: usize,
    salt: u64,
}

impl Lent {
    pub fn new(random: &mut Random) -> Lent {
        let (output, work) = match random.weighted(&[94, 2, 2, 2]) {
            0 => (enough(OUTPUT, random), enough(WORK, random)),
            1 => (short(OUTPUT, random), enough(WORK, random)),
            2 => (enough(OUTPUT, random), short(WORK, random)),
            _ => (short(OUTPUT, random), short(WORK, random)),
        };
        Lent { output, work, salt: random.number() }
    }
}

fn enough(length: usize, random: &mut Random) -> usize {
    length + if random.percent(50) { 0 } else { random.between(1, EXTRA) }
}

fn short(length: usize, random: &mut Random) -> usize {
    [length - 1, 0, random.below(length)][random.below(3)]
}

/// The buffers of both engines' calls, and what they held before.
#[derive(Default)]
pub struct Buffers {
    pattern: Vec<u8>,
    pub output: Vec<u8>,
    pub work: Vec<u8>,
    pub reference_output: Vec<u8>,
    pub reference_work: Vec<u8>,
}

impl Buffers {
    /// Fills all buffers with bytes that depend on the place and the salt.
    pub fn fill(&mut self, lent: &Lent) {
        let byte = |place: u64| (place.wrapping_add(lent.salt).wrapping_mul(0x9e37_79b9_7f4a_7c15) >> 56) as u8;
        self.pattern.clear();
        self.pattern.extend((0..(WORK + EXTRA) as u64).map(byte));
        let Buffers { pattern, output, work, reference_output, reference_work } = self;
        for (buffer, length) in [(output, lent.output), (work, lent.work), (reference_output, lent.output), (reference_work, lent.work)] {
            buffer.clear();
            buffer.extend_from_slice(&pattern[..length]);
        }
    }

    /// Both outputs are alike, and the engine has kept what it has to keep: all where the call is refused, else what is beyond the written length and
    /// beyond the part of the work buffer that is free. The error says where not.
    pub fn agree(&self, written: Option<usize>) -> Result<(), String> {
        if let Some(place) = self.output.iter().zip(&self.reference_output).position(|(ours, theirs)| ours != theirs) {
            let (ours, theirs) = (self.output[place], self.reference_output[place]);
            return Err(format!("output byte {place}: engine {ours}, reference {theirs}"));
        }
        let (output_from, work_from) = written.map_or((0, 0), |written| (written, WORK));
        let same = |buffer: &[u8], from: usize| buffer[from..] == self.pattern[from..buffer.len()];
        if !same(&self.output, output_from) || !same(&self.work, work_from) {
            return Err(format!("bytes that are to be kept have changed; written {written:?}"));
        }
        Ok(())
    }
}
