//! A week that is asked about: its records, and what came of them.

use plankeeper::{Answer, Cluster, Record, Refusal, records};
use weektext::{Entry, Error, entries, entries_of_text};

/// A week as it was played.
pub struct Week {
    /// Its records, as far as the listing reads them.
    pub records: Vec<Played>,
    /// The cluster behind the last of them.
    pub cluster: Cluster,
}

/// A record of the week, and what came of it.
pub struct Played {
    /// Its step in the listing, from 1.
    pub step: usize,
    /// Its text, its line and the swap that it carries.
    pub entry: Entry,
    /// The shard that it reached; nothing where it was refused before (1 to 5).
    pub receiver: Option<u8>,
    /// What the library answered.
    pub answer: Result<Answer, Refusal>,
}

impl Week {
    /// The week of these records.
    pub fn of_records(bytes: &[u8]) -> Self {
        Self::played(bytes, entries(bytes))
    }

    /// The week of this text; or the text's first error.
    pub fn of_text(text: &[u8]) -> Result<Self, Error> {
        let bytes = weektext::records(text)?;
        Ok(Self::played(&bytes, entries_of_text(text)?))
    }

    /// Plays the records, each with its entry. As the listing does, it reads no
    /// further after refusal 1 or 2; a call that is refused changes nothing.
    fn played(bytes: &[u8], entries: Vec<Entry>) -> Self {
        let mut cluster = Cluster::new();
        let played = (1..).zip(entries).zip(records(bytes));
        let played = played.map(|((step, entry), read)| Played {
            step,
            entry,
            receiver: read.as_ref().ok().map(Record::receiver),
            answer: read.and_then(|record| cluster.play(&record)),
        });
        Week {
            records: played.collect(),
            cluster,
        }
    }
}

impl Played {
    /// How the record is called: the line of the week's text that it stands on, or
    /// its step where there is none, and its own text.
    pub fn name(&self) -> String {
        let text = &self.entry.text;
        match self.entry.line {
            Some(line) => format!("line {line}, {text}"),
            None => format!("step {}, {text}", self.step),
        }
    }
}
