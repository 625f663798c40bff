//! The records of document 01's example, byte by byte.

use crate::example::TRANSACTION;

/// Two openings, the transaction registered at both shards, and three votes.
pub fn week() -> Vec<u8> {
    let mut week = vec![3, 0, 0, 0, 0, 0, 10, 0, 0, 0, 3];
    week.extend([3, 1, 0, 0, 0, 0, 20, 0, 0, 0, 2]);
    for head in [
        &[1, 0][..],
        &[1, 1],
        &[2, 0, 1, 1],
        &[2, 1, 0, 1],
        &[2, 1, 0, 1],
    ] {
        week.extend(head);
        week.extend(TRANSACTION);
    }
    week
}
