//! Document 01's example, byte by byte.

/// Document 01's swap 5: takes an opening token of each of the pantries 0 and
/// 1, and gives 3 portions at pantry 1 and 2 at pantry 0.
#[rustfmt::skip]
pub const TRANSACTION: [u8; 98] = [
    0, 0, 0, 5,  2, 2,
    0,  0, 0, 0, 0,  0,  0, 0, 0, 10,  0, 0, 0, 3,
    1,  0, 0, 0, 0,  0,  0, 0, 0, 20,  0, 0, 0, 2,
    0,  0, 0, 0, 0,  0,  0, 0, 0, 0,   0, 0, 0, 0,
    0,  0, 0, 0, 0,  0,  0, 0, 0, 0,   0, 0, 0, 0,
    1,  0, 0, 0, 10,  0, 0, 0, 3,
    0,  0, 0, 0, 20,  0, 0, 0, 2,
    0,  0, 0, 0, 0,   0, 0, 0, 0,
    0,  0, 0, 0, 0,   0, 0, 0, 0,
];
