//! Inputs and results of a round of calls.

/// The result of a call.
#[derive(Clone, Debug, PartialEq)]
pub enum Outcome {
    Value(u128),
    Refused(String),
}

/// A round of calls: each hash in each way, of one input.
pub struct Case<'a> {
    pub seed: u64,
    pub secret: Vec<u8>,
    pub input: &'a [u8],
    /// The places at which a stream's input is split, in order. At an even one the stream is cloned, and the clone
    /// continues.
    pub cuts: Vec<usize>,
}

impl std::fmt::Debug for Case<'_> {
    fn fmt(&self, f: &mut std::fmt::Formatter<'_>) -> std::fmt::Result {
        let Self { seed, cuts, .. } = self;
        write!(
            f,
            "{} bytes, seed {seed:#x}, a secret of {} bytes, cuts {cuts:?}",
            self.input.len(),
            self.secret.len()
        )
    }
}

impl<'a> Case<'a> {
    pub fn draw(random: &mut Random, bytes: &'a [u8]) -> Case<'a> {
        let length = match random.below(100) {
            0..=59 => random.below(300),
            60..=79 => 200 + random.below(1200),
            80..=98 => random.below(6000),
            _ => random.below(1 << 16),
        };
        let start = random.below(bytes.len() - length);
        let secret_length = match random.below(4) {
            0 => 130 + random.below(12),
            1 => 192,
            2 => random.below(130),
            _ => 136 + random.below(600),
        };
        let mut cuts: Vec<usize> = (0..random.below(6))
            .map(|_| random.below(length + 1))
            .collect();
        cuts.sort_unstable();
        let seed = match random.below(4) {
            0 => 0,
            1 => u64::MAX - random.next() % 2,
            _ => random.next(),
        };
        Case {
            seed,
            secret: random.bytes(secret_length),
            input: &bytes[start..start + length],
            cuts,
        }
    }

    /// The input's chunks, and whether the stream is cloned before each.
    pub fn pieces(&self) -> impl Iterator<Item = (&'a [u8], bool)> + '_ {
        let starts = std::iter::once(0).chain(self.cuts.iter().copied());
        let ends = self
            .cuts
            .iter()
            .copied()
            .chain(std::iter::once(self.input.len()));
        starts
            .zip(ends)
            .map(|(start, end)| (&self.input[start..end], start % 2 == 0))
    }
}

/// Pseudo-random numbers from a seed: the generator splitmix64.
pub struct Random(u64);

impl Random {
    pub fn new(seed: u64) -> Self {
        Random(seed)
    }

    pub fn next(&mut self) -> u64 {
        self.0 = self.0.wrapping_add(0x9e37_79b9_7f4a_7c15);
        let mut word = self.0;
        word = (word ^ (word >> 30)).wrapping_mul(0xbf58_476d_1ce4_e5b9);
        word = (word ^ (word >> 27)).wrapping_mul(0x94d0_49bb_1331_11eb);
        word ^ (word >> 31)
    }

    pub fn below(&mut self, bound: usize) -> usize {
        (self.next() % bound as u64) as usize
    }

    pub fn bytes(&mut self, length: usize) -> Vec<u8> {
        (0..length).map(|_| self.next() as u8).collect()
    }
}
