use crate::Refusal;

/// Shards (document 01: pantries) are numbered from 0 to this.
pub const MAX_SHARD: u8 = 7;
/// How many shards there are.
pub const SHARDS: usize = MAX_SHARD as usize + 1;
/// Places for inputs, and for outputs, in every transaction.
pub const SLOTS: usize = 4;
/// Largest amount (document 01: portions) of one token.
pub const MAX_AMOUNT: u32 = 1_000_000;
/// Number of genesis indices (document 01: opening positions) of a shard.
pub const GENESIS: u8 = 128;

/// Names a token (document 01: a token's name).
#[derive(Clone, Copy, Debug, Default, PartialEq, Eq, Hash)]
pub struct TokenId {
    /// Document 01: pantry.
    pub shard: u8,
    /// Number of the transaction that made the token, 0 for a genesis token
    /// (document 01: making swap).
    pub creator: u32,
    /// Place among its creator's outputs, or genesis index (document 01:
    /// position).
    pub index: u8,
}

/// A token to be consumed (document 01: input).
#[derive(Clone, Copy, Debug, Default, PartialEq, Eq, Hash)]
pub struct Input {
    /// Document 01: the token's name.
    pub token: TokenId,
    /// Document 01: household.
    pub owner: u32,
    /// Document 01: portions.
    pub amount: u32,
}

/// A token to be made (document 01: output).
#[derive(Clone, Copy, Debug, Default, PartialEq, Eq, Hash)]
pub struct Output {
    /// Document 01: pantry.
    pub shard: u8,
    /// Document 01: household.
    pub owner: u32,
    /// Document 01: portions.
    pub amount: u32,
}

/// Consumes input tokens and makes output tokens (document 01: swap). Two
/// transactions are the same if every field agrees, unused slots too.
#[derive(Clone, Copy, Debug, Default, PartialEq, Eq, Hash)]
pub struct Transaction {
    /// Document 01: the swap's number.
    pub number: u32,
    /// How many input slots are used, from the front.
    pub input_count: u8,
    /// How many output slots are used, from the front.
    pub output_count: u8,
    /// Slots beyond the count are all zero.
    pub inputs: [Input; SLOTS],
    /// Slots beyond the count are all zero.
    pub outputs: [Output; SLOTS],
}

impl Input {
    /// Whether the fields of a used slot are in range.
    #[inline]
    fn fits(&self, genesis: u8) -> bool {
        let indices = if self.token.creator == 0 {
            genesis
        } else {
            SLOTS as u8
        };
        self.token.shard <= MAX_SHARD
            && self.token.index < indices
            && holding_fits(self.owner, self.amount)
    }
}

impl Output {
    /// Whether the fields of a used slot are in range.
    #[inline]
    fn fits(&self) -> bool {
        self.shard <= MAX_SHARD && holding_fits(self.owner, self.amount)
    }
}

/// Whether a token may belong to this owner with this amount.
#[inline]
pub(crate) fn holding_fits(owner: u32, amount: u32) -> bool {
    owner != 0 && (1..=MAX_AMOUNT).contains(&amount)
}

impl Transaction {
    /// The used inputs: all slots if the count is beyond them.
    #[inline]
    pub fn used_inputs(&self) -> &[Input] {
        &self.inputs[..SLOTS.min(self.input_count.into())]
    }

    /// The used outputs: all slots if the count is beyond them.
    #[inline]
    pub fn used_outputs(&self) -> &[Output] {
        &self.outputs[..SLOTS.min(self.output_count.into())]
    }

    /// The shards of the used inputs and then of the used outputs, some
    /// perhaps more than once (document 01: the swap's pantries).
    pub fn shards(&self) -> impl Iterator<Item = u8> {
        let inputs = self.used_inputs().iter().map(|input| input.token.shard);
        inputs.chain(self.used_outputs().iter().map(|output| output.shard))
    }

    #[inline]
    fn in_range(&self, genesis: u8) -> bool {
        let counts = 1..=SLOTS as u8;
        self.number != 0
            && counts.contains(&self.input_count)
            && counts.contains(&self.output_count)
            && (0u8..).zip(&self.inputs).all(|(slot, input)| {
                if slot < self.input_count {
                    input.fits(genesis)
                } else {
                    *input == Input::default()
                }
            })
            && (0u8..).zip(&self.outputs).all(|(slot, output)| {
                if slot < self.output_count {
                    output.fits()
                } else {
                    *output == Output::default()
                }
            })
    }

    #[inline]
    fn names_token_twice(&self) -> bool {
        let used = self.used_inputs();
        (1..used.len()).any(|slot| {
            used[..slot]
                .iter()
                .any(|earlier| earlier.token == used[slot].token)
        })
    }

    /// Sums are taken over amounts in range, so that they stay far below 32
    /// bits.
    #[inline]
    fn balances(&self) -> bool {
        let consumed: u32 = self.used_inputs().iter().map(|input| input.amount).sum();
        let made: u32 = self.used_outputs().iter().map(|output| output.amount).sum();
        consumed == made
    }
}

/// The first of the refusals 3, 4 and 5 that fits, where shards have `genesis`
/// genesis indices.
#[inline]
pub fn cause(genesis: u8, transaction: &Transaction) -> Option<Refusal> {
    if !transaction.in_range(genesis) {
        Some(Refusal::OutOfRange)
    } else if transaction.names_token_twice() {
        Some(Refusal::TokenTwice)
    } else if !transaction.balances() {
        Some(Refusal::SumsDiffer)
    } else {
        None
    }
}

/// Whether the shard is that of a used input or output (document 01: among the
/// swap's pantries).
pub fn takes_part(shard: u8, transaction: &Transaction) -> bool {
    let mut inputs = transaction.used_inputs().iter();
    let mut outputs = transaction.used_outputs().iter();
    inputs.any(|input| input.token.shard == shard) || outputs.any(|output| output.shard == shard)
}
