//! The buffer: 64 KiB, filled once with 642 valid votes.
//!
//! Each vote is drawn by itself from a row of random numbers that is the same
//! in every run: shards 0 to 7 for receiver, sender and every slot, yes or no,
//! any number but 0, one to four inputs and one to four outputs, owners of any
//! number but 0. Every second input on average is an opening's token (creator
//! 0, index 0 to 127), the others are outputs of another transaction (index 0 to
//! 3), and no two of a vote are named alike. Amounts are 1 to 1,000,000 each,
//! those of the inputs and those of the outputs with one sum.

/// Bytes of the buffer.
const BUFFER: usize = 64 * 1024;
/// Bytes of a vote.
pub const VOTE: usize = 102;
/// As many votes as the buffer holds; 52 bytes behind them are not used.
pub const VOTES: usize = BUFFER / VOTE;

/// Bytes of four inputs, and of four outputs.
const INPUTS: usize = 4 * 14;
const OUTPUTS: usize = 4 * 9;
/// The largest amount.
const LIMIT: u32 = 1_000_000;

/// A filled buffer.
pub struct Buffer {
    bytes: Box<[u8; BUFFER]>,
}

impl Buffer {
    /// Fills one.
    pub fn new() -> Buffer {
        let mut bytes = Box::new([0; BUFFER]);
        let mut draw = Draw::new(0x5eed);
        for vote in bytes.as_chunks_mut::<VOTE>().0 {
            vote.copy_from_slice(&draw.vote());
        }
        Buffer { bytes }
    }

    /// The votes, one behind the other.
    pub fn votes(&self) -> &[u8] {
        &self.bytes[..VOTES * VOTE]
    }
}

/// A row of random numbers (SplitMix64).
pub struct Draw(u64);

impl Draw {
    /// The row that starts from this seed.
    pub fn new(seed: u64) -> Draw {
        Draw(seed)
    }

    /// A number from the first to the last.
    pub fn number(&mut self, first: u32, last: u32) -> u32 {
        self.0 = self.0.wrapping_add(0x9e37_79b9_7f4a_7c15);
        let mut drawn = self.0;
        drawn = (drawn ^ (drawn >> 30)).wrapping_mul(0xbf58_476d_1ce4_e5b9);
        drawn = (drawn ^ (drawn >> 27)).wrapping_mul(0x94d0_49bb_1331_11eb);
        drawn ^= drawn >> 31;
        first + (drawn % (u64::from(last - first) + 1)) as u32
    }

    fn shard(&mut self) -> u8 {
        self.number(0, 7) as u8
    }

    /// A vote's bytes.
    fn vote(&mut self) -> Vec<u8> {
        let (inputs, outputs) = (self.number(1, 4), self.number(1, 4));
        // What as many amounts can come to on either side.
        let total = self.number(inputs.max(outputs), LIMIT * inputs.min(outputs));
        let mut vote = vec![2, self.shard(), self.shard(), self.number(0, 1) as u8];
        vote.extend(self.number(1, u32::MAX).to_be_bytes());
        vote.extend([inputs as u8, outputs as u8]);
        let front = vote.len();
        let names = self.names(inputs as usize);
        for (name, amount) in names.into_iter().zip(self.parts(total, inputs)) {
            vote.extend(name);
            vote.extend(self.value(amount));
        }
        vote.resize(front + INPUTS, 0);
        for amount in self.parts(total, outputs) {
            vote.push(self.shard());
            vote.extend(self.value(amount));
        }
        vote.resize(front + INPUTS + OUTPUTS, 0);
        vote
    }

    /// So many tokens' names (shard, creator, index), each another.
    fn names(&mut self, count: usize) -> Vec<[u8; 6]> {
        let mut names = Vec::new();
        while names.len() < count {
            let name = self.name();
            if !names.contains(&name) {
                names.push(name);
            }
        }
        names
    }

    fn name(&mut self) -> [u8; 6] {
        let opening = self.number(0, 1) == 0;
        let (creator, last) = if opening {
            (0, 127)
        } else {
            (self.number(1, u32::MAX), 3)
        };
        let [a, b, c, d] = creator.to_be_bytes();
        let index = self.number(0, last) as u8;
        [self.shard(), a, b, c, d, index]
    }

    /// An owner and this amount.
    fn value(&mut self, amount: u32) -> [u8; 8] {
        let [a, b, c, d] = self.number(1, u32::MAX).to_be_bytes();
        let [e, f, g, h] = amount.to_be_bytes();
        [a, b, c, d, e, f, g, h]
    }

    /// The total in so many amounts, none of them 0 or above the limit.
    fn parts(&mut self, mut total: u32, count: u32) -> Vec<u32> {
        let part = |left: u32| {
            let least = total.saturating_sub(LIMIT * left).max(1);
            let part = self.number(least, LIMIT.min(total - left));
            total -= part;
            part
        };
        (0..count).rev().map(part).collect()
    }
}
