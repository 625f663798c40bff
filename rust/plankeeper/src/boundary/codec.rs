//! Records read and written.
//!
//! SAFETY, for every call here: pointer and length are those of a live
//! slice, and one that is written to is its caller's alone.

use super::{ReadingWords, TransactionWords, raw};

/// Reads the record at the front of the bytes: answers 0 and fills the words
/// with its fields, or answers with the refusal's number (1 to 5) and fills
/// them with zeros.
#[inline]
pub fn read(bytes: &[u8], fields: &mut ReadingWords) -> u32 {
    unsafe { raw::plankeeper_read(bytes.as_ptr(), bytes.len(), fields) }
}

/// How many bytes the record at the front takes, refused or not; all of them
/// where no whole record stands there.
#[inline]
pub fn taken(bytes: &[u8]) -> usize {
    unsafe { raw::plankeeper_taken(bytes.as_ptr(), bytes.len()) }
}

/// Writes a record of kind 1 to the front of the buffer: answers with the
/// number of bytes written, or with 1000 times the number of a refusal; then
/// nothing is written. So do the others.
pub fn write_register(receiver: u32, transaction: &TransactionWords, buffer: &mut [u8]) -> u64 {
    let (out, room) = (buffer.as_mut_ptr(), buffer.len());
    unsafe { raw::plankeeper_write_register(receiver, transaction, out, room) }
}

/// Writes a record of kind 2 to the front of the buffer.
pub fn write_vote(
    receiver: u32,
    sender: u32,
    verdict: u32,
    transaction: &TransactionWords,
    buffer: &mut [u8],
) -> u64 {
    let (out, room) = (buffer.as_mut_ptr(), buffer.len());
    unsafe { raw::plankeeper_write_vote(receiver, sender, verdict, transaction, out, room) }
}

/// Writes a record of kind 3 to the front of the buffer.
pub fn write_mint(receiver: u32, index: u32, owner: u32, amount: u32, buffer: &mut [u8]) -> u64 {
    let (out, room) = (buffer.as_mut_ptr(), buffer.len());
    unsafe { raw::plankeeper_write_mint(receiver, index, owner, amount, out, room) }
}

/// Writes a record of kind 4 to the front of the buffer.
pub fn write_turn(receiver: u32, buffer: &mut [u8]) -> u64 {
    let (out, room) = (buffer.as_mut_ptr(), buffer.len());
    unsafe { raw::plankeeper_write_turn(receiver, out, room) }
}
