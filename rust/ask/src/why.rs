//! Which token spoiled a swap: what a pantry found of its inputs there when it
//! registered the swap (document 02's slip 2), in plain words; or, where the pantry
//! does not know the swap, which records about it were refused.

use std::fmt::{self, Display, Formatter};

use plankeeper::{Input, Known, Refusal, Verdict};

use crate::{Found, Played, Week, cause, found, words};

/// So many refused records are shown for each cause.
const SHOWN: usize = 3;

/// What is asked: a pantry, and a swap's number.
#[derive(Clone, Copy, Debug, PartialEq, Eq)]
pub struct Why {
    /// The pantry; any number may be asked for.
    pub pantry: u32,
    /// The swap's number.
    pub swap: u32,
}

/// Why there is nothing to tell. Shown as text it is a sentence for the steward,
/// and a line for each record that was refused.
#[derive(Clone, Debug, PartialEq, Eq)]
pub struct Refused {
    /// What was asked.
    pub question: Why,
    /// The library's refusal: 3 or 18.
    pub refusal: Refusal,
    /// Where the pantry does not know the swap, the records about it that were
    /// refused there or before they reached a pantry, by cause.
    pub records: Vec<String>,
}

impl Why {
    /// The text: a line for the swap, then one for each of its inputs at the
    /// pantry.
    pub fn answer(self, week: &Week) -> Result<String, Refused> {
        let cluster = &week.cluster;
        let shard = self.shard();
        let refused = |refusal| self.refused(week, refusal);
        // The library says why it has nothing to tell.
        cluster.findings(shard, self.swap).map_err(refused)?;
        let mut known = cluster.transactions(shard);
        let known = known.find(|known| known.transaction.number() == self.swap);
        let known = known.ok_or_else(|| refused(Refusal::NoSuchNumber))?;
        let found = found(cluster, shard, &known.transaction).map_err(refused)?;
        let mut text = heading(shard, &known);
        for found in &found {
            text += &line(found);
        }
        if found.is_empty() {
            text += &format!("it takes nothing from pantry {shard}\n");
        }
        Ok(text)
    }

    /// The library takes a number above 255 for 255, which is no shard either.
    fn shard(self) -> u8 {
        u8::try_from(self.pantry).unwrap_or(u8::MAX)
    }

    /// That there is nothing to tell, with the records that were refused.
    fn refused(self, week: &Week, refusal: Refusal) -> Refused {
        let records = match refusal {
            Refusal::NoSuchNumber => by_cause(week.records.iter().filter_map(|played| {
                let refusal = played.answer.err()?;
                self.is_about(played).then_some((played, refusal))
            })),
            _ => Vec::new(),
        };
        Refused {
            question: self,
            refusal,
            records,
        }
    }

    /// Whether the record carries a swap of this number, and reached this pantry
    /// or none.
    fn is_about(self, played: &Played) -> bool {
        let carried = played.entry.swap.as_ref();
        let here = played.receiver.is_none_or(|shard| shard == self.shard());
        carried.is_some_and(|swap| swap.number == self.swap) && here
    }
}

/// The swap, the pantry, its vote and the outcome there.
fn heading(shard: u8, known: &Known) -> String {
    let (number, outcome) = (known.transaction.number(), known.outcome);
    let vote = match known.heard[usize::from(shard)] {
        Some(Verdict::Yes) => "YES",
        Some(Verdict::No) => "NO",
        None => "-",
    };
    format!("swap {number} at pantry {shard}, voted {vote}, outcome {outcome}\n")
}

/// An input by its place among all inputs of the swap, and what was found of it.
fn line(found: &Found) -> String {
    let Input {
        token,
        owner,
        amount,
    } = found.input;
    let (shard, creator, index) = (token.shard, token.creator, token.index);
    let (place, portions) = (
        found.place,
        if amount == 1 { "portion" } else { "portions" },
    );
    format!(
        "input {place}, token (pantry {shard}, making swap {creator}, position {index}), \
         household {owner}, {amount} {portions}: {}\n",
        words(&found.finding)
    )
}

/// The first records of each cause, in the order in which the causes first came,
/// and how many more there are.
fn by_cause<'a>(refused: impl Iterator<Item = (&'a Played, Refusal)>) -> Vec<String> {
    let mut causes: Vec<(Refusal, Vec<&Played>)> = Vec::new();
    for (played, refusal) in refused {
        match causes.iter_mut().find(|(other, _)| *other == refusal) {
            Some((_, records)) => records.push(played),
            None => causes.push((refusal, vec![played])),
        }
    }
    let lines = causes.iter().flat_map(|(refusal, records)| {
        let number = refusal.number();
        let more = records.len().saturating_sub(SHOWN);
        let shown = records.iter().take(SHOWN);
        let shown = shown.map(move |played| {
            let record = played.name();
            format!("{record}: refused, {number}: {}", cause(*refusal))
        });
        shown.chain((more > 0).then(|| format!("and {more} more: refused, {number}")))
    });
    lines.collect()
}

impl Display for Refused {
    fn fmt(&self, f: &mut Formatter<'_>) -> fmt::Result {
        let Why { pantry, swap } = self.question;
        match self.refusal {
            Refusal::OutOfRange if pantry > 7 => {
                write!(f, "there is no pantry {pantry}: pantries are 0 to 7")?;
            }
            Refusal::OutOfRange => write!(f, "there is no swap {swap}: swap numbers are not 0")?,
            _ => write!(f, "pantry {pantry} knows no swap {swap}")?,
        }
        let mut lines = self.records.iter();
        lines.try_for_each(|line| write!(f, "\n{line}"))
    }
}
