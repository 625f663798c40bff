//! From the records to the text.

use reference::{
    MINT_LENGTH, REGISTER_LENGTH, Record, TURN_LENGTH, Transaction, VOTE_LENGTH, decode, rest,
};

use crate::lines::{BYTES, Fields, Labels, carried, raw};

/// The text of these bytes: a line for each record, and each swap's fields in
/// front of its first. From an unknown kind or a cut record on, all bytes are
/// shown as they are, for nobody can tell where a record begins.
pub fn text(mut bytes: &[u8]) -> String {
    let mut week = Week::default();
    while let Some(record) = decode(bytes) {
        week.record(&record);
        bytes = rest(bytes);
    }
    week.strange(bytes);
    week.text
}

#[derive(Default)]
struct Week {
    text: String,
    labels: Labels,
}

impl Week {
    /// A record's line; its swap's fields stand where it is met first.
    fn record(&mut self, record: &Record) {
        if let Some(transaction) = carried(record).filter(|swap| !self.labels.knows(swap)) {
            self.swap(transaction);
        }
        let line = self.labels.record(record);
        self.line(&line);
    }

    /// The swap with its label and its fields.
    fn swap(&mut self, transaction: &Transaction) {
        self.gap();
        let number = transaction.number;
        let label = self.labels.label(transaction);
        let named = if label == number.to_string() {
            format!("swap {number}")
        } else {
            format!("swap {number} as {label}")
        };
        self.line(&named);
        let Fields {
            counts,
            takes,
            gives,
        } = Fields::of(transaction);
        for field in counts.iter().chain(&takes).chain(&gives) {
            self.text += "  ";
            self.line(field);
        }
        self.text.push('\n');
    }

    fn line(&mut self, line: &str) {
        self.text += line;
        self.text.push('\n');
    }

    /// A blank line, unless one is there.
    fn gap(&mut self) {
        if !self.text.is_empty() && !self.text.ends_with("\n\n") {
            self.text.push('\n');
        }
    }

    /// Bytes at the end that are no whole record.
    fn strange(&mut self, bytes: &[u8]) {
        let Some(&kind) = bytes.first() else {
            return;
        };
        self.gap();
        let remark = match length(kind) {
            Some(whole) => {
                let there = bytes.len();
                format!("# a record of kind {kind}, cut: {there} of {whole} bytes")
            }
            None => format!("# kind {kind} is unknown"),
        };
        self.line(&remark);
        for part in bytes.chunks(BYTES) {
            self.line(&raw(part));
        }
    }
}

/// The whole record's length.
fn length(kind: u8) -> Option<usize> {
    match kind {
        1 => Some(REGISTER_LENGTH),
        2 => Some(VOTE_LENGTH),
        3 => Some(MINT_LENGTH),
        4 => Some(TURN_LENGTH),
        _ => None,
    }
}
