/// Splitmix64: small, fast, and the same everywhere.
pub struct Rng(u64);

impl Rng {
    /// A sequence for each case, so that one case can be made again alone. The
    /// case's number is mixed first: close states would give shifted copies of
    /// one sequence.
    pub fn new(seed: u64, case: u64) -> Self {
        Rng(seed ^ Rng(case).bits())
    }

    /// 64 random bits.
    pub fn bits(&mut self) -> u64 {
        self.0 = self.0.wrapping_add(0x9E37_79B9_7F4A_7C15);
        let mut bits = self.0;
        bits = (bits ^ (bits >> 30)).wrapping_mul(0xBF58_476D_1CE4_E5B9);
        bits = (bits ^ (bits >> 27)).wrapping_mul(0x94D0_49BB_1331_11EB);
        bits ^ (bits >> 31)
    }

    /// A number below `end`.
    pub fn below(&mut self, end: usize) -> usize {
        ((u128::from(self.bits()) * end as u128) >> 64) as usize
    }

    /// A number from `low` to `high`, both included.
    pub fn between(&mut self, low: u32, high: u32) -> u32 {
        low + self.below((high - low) as usize + 1) as u32
    }

    /// True once in `times`.
    pub fn once_in(&mut self, times: usize) -> bool {
        self.below(times) == 0
    }

    /// One of the choices.
    pub fn pick<T: Copy>(&mut self, choices: &[T]) -> T {
        choices[self.below(choices.len())]
    }

    /// A random byte.
    pub fn byte(&mut self) -> u8 {
        self.bits() as u8
    }

    /// Random contents.
    pub fn fill(&mut self, bytes: &mut [u8]) {
        for part in bytes.chunks_mut(8) {
            part.copy_from_slice(&self.bits().to_le_bytes()[..part.len()]);
        }
    }

    /// Random bytes: one at least, and no more than so many.
    pub fn bytes(&mut self, most: usize) -> Vec<u8> {
        let mut bytes = vec![0; 1 + self.below(most)];
        self.fill(&mut bytes);
        bytes
    }

    /// Removes one byte at least, and no more than so many, at any place.
    pub fn remove_from(&mut self, bytes: &mut Vec<u8>, most: usize) {
        let from = self.below(bytes.len());
        let to = bytes.len().min(from + 1 + self.below(most));
        bytes.drain(from..to);
    }
}
