//! What a page shows: the records one by one, and the end of the week.

mod end;
mod history;
mod rows;

use std::collections::HashMap;
use std::fmt::{self, Display, Formatter};

use plankeeper::{Cluster, records};
use weektext::{Entry, entries};

pub use end::ShardState;
pub use history::{AtShard, End, History, Refused};
pub use rows::Row;

use history::Gathered;

/// A week as it was played.
pub struct Week {
    /// A row for each record, as far as the listing reads them.
    pub rows: Vec<Row>,
    /// Every transaction that a record of the week has carried, read or not, in
    /// the order in which they first came. Others refer to one by its place here.
    pub histories: Vec<History>,
    /// What each shard holds and knows at the end.
    pub shards: [ShardState; 8],
    /// The listing's last line.
    pub total: String,
    /// The places of the transactions that shards know, by shard and number.
    known: HashMap<(u8, u32), usize>,
}

/// Why the records, the listing and the text are not of one week.
#[derive(Clone, Debug, PartialEq, Eq)]
pub enum Mismatch {
    /// A line of the listing is not what the library answers.
    Listing {
        /// The line's number, from 1.
        number: usize,
        /// The listing's line; nothing where the listing has ended.
        listed: Option<String>,
        /// The line by what the library answers; nothing where the week has ended.
        played: Option<String>,
    },
    /// A record of the text is not the one that stands among the records.
    Text {
        /// The record's number, from 1.
        number: usize,
    },
}

impl Week {
    /// Plays the records and lays the listing beside the answers. `written` has
    /// the same records as people read them: from the week's text, so that their
    /// lines are known, or from the records.
    pub fn read(bytes: &[u8], listing: &str, written: Vec<Entry>) -> Result<Self, Mismatch> {
        same_records(bytes, &written)?;
        let mut cluster = Cluster::new();
        let mut gathered = Gathered::default();
        let mut lines = listing.lines();
        let mut rows = Vec::new();
        for ((step, entry), read) in (1..).zip(written).zip(records(bytes)) {
            let row = Row::played(&mut cluster, &mut gathered, step, entry, read);
            same_line(step, lines.next(), Some(&row.line))?;
            rows.push(row);
        }
        let total = format!("TOTAL {}", cluster.total());
        let last = rows.len() + 1;
        same_line(last, lines.next(), Some(&total))?;
        same_line(last + 1, lines.next(), None)?;
        let shards = end::shards(&cluster);
        let histories = gathered.ended(&cluster, &shards);
        Ok(Week {
            rows,
            known: history::numbered(&histories),
            histories,
            shards,
            total,
        })
    }

    /// The place of the transaction that the shard knows by this number.
    pub fn known(&self, shard: u8, number: u32) -> Option<usize> {
        self.known.get(&(shard, number)).copied()
    }

    /// The places of the committed transactions in their serial order: by last
    /// registration.
    pub fn committed(&self) -> Vec<usize> {
        let mut places = self.ended(|end| end == End::Committed);
        places.sort_by_key(|&place| self.histories[place].registered);
        places
    }

    /// The places of the transactions that have ended so.
    pub fn ended(&self, wanted: impl Fn(End) -> bool) -> Vec<usize> {
        let places = 0..self.histories.len();
        let places = places.filter(|&place| wanted(self.histories[place].end()));
        places.collect()
    }
}

/// What was written has to be these records, lines aside.
fn same_records(bytes: &[u8], written: &[Entry]) -> Result<(), Mismatch> {
    let records = entries(bytes);
    let same = |(one, other): (&Entry, &Entry)| one.text == other.text && one.swap == other.swap;
    let alike = records.iter().zip(written);
    let alike = alike.take_while(|&both| same(both)).count();
    if alike == records.len() && alike == written.len() {
        return Ok(());
    }
    Err(Mismatch::Text { number: alike + 1 })
}

/// The listing's line of that number has to be the one that was played; where the
/// one ends the other has to end, too.
fn same_line(number: usize, listed: Option<&str>, played: Option<&str>) -> Result<(), Mismatch> {
    if listed == played {
        return Ok(());
    }
    Err(Mismatch::Listing {
        number,
        listed: listed.map(String::from),
        played: played.map(String::from),
    })
}

impl Display for Mismatch {
    fn fmt(&self, f: &mut Formatter<'_>) -> fmt::Result {
        let shown = |line: &Option<String>| {
            let quoted = |line: &String| format!("'{}'", line.escape_debug());
            line.as_ref().map_or("nothing more".into(), quoted)
        };
        match self {
            Mismatch::Listing {
                number,
                listed,
                played,
            } => {
                let (listed, played) = (shown(listed), shown(played));
                write!(
                    f,
                    "line {number} of the listing is {listed}, and the records give {played}"
                )?;
            }
            Mismatch::Text { number } => {
                write!(f, "record {number} of the text is not that of the records")?;
            }
        }
        f.write_str(": they are not of one week")
    }
}
