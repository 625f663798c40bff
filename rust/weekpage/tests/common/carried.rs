//! The transactions that a week's records carry, whether they could be read or not.

use reference::{Record, Transaction, decode, read};

/// The transaction that each record's bytes have, if they have one, as far as the
/// listing reads them.
pub fn carried(bytes: &[u8]) -> Vec<Option<Transaction>> {
    let (mut carried, mut rest) = (Vec::new(), bytes);
    while !rest.is_empty() {
        carried.push(match decode(rest) {
            Some(Record::Register { transaction, .. } | Record::Vote { transaction, .. }) => {
                Some(transaction)
            }
            _ => None,
        });
        rest = &rest[read(rest).taken..];
    }
    carried
}
