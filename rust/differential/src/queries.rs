//! Every query of a shard, by words and through the types, beside the
//! reference's state.

use engine::{UNSET, findings_words, outcome_code, to_words};
use plankeeper::boundary::{
    FINDINGS_WORDS, FindingsWords, KNOWN_WORDS, KnownWords, Memory, TokenWords,
};
use plankeeper::{Cluster, Outcome};
use reference::{Finding, Findings, Known, Refusal, SLOTS, Shard, Token, Verdict};
use weeks::{Tally, refused};

/// What is lent for findings.
const LENT: FindingsWords = [UNSET; FINDINGS_WORDS];

/// What answers with so many findings are counted as.
pub const FOUND: [&str; SLOTS + 1] = [
    "no finding",
    "one finding",
    "two findings",
    "three findings",
    "four findings",
];

/// What is asked of a shard.
pub struct Questions {
    /// Places of tokens and of transactions: each that is in use, those behind,
    /// and some far away.
    places: Vec<usize>,
    /// Numbers of transactions: all that are known, and others.
    numbers: Vec<u32>,
}

/// What the boundary's functions answer.
#[derive(Debug, PartialEq)]
struct Words {
    held: usize,
    tokens: Vec<(u32, TokenWords)>,
    known: usize,
    transactions: Vec<(u32, KnownWords)>,
    outcomes: Vec<u32>,
    findings: Vec<(u32, FindingsWords)>,
    total: u64,
    turned: u32,
}

/// What the types' functions answer.
#[derive(Debug, PartialEq)]
struct Types {
    tokens: Vec<plankeeper::Token>,
    transactions: Vec<plankeeper::Known>,
    outcomes: Vec<Option<Outcome>>,
    findings: Vec<Result<Vec<Finding>, Refusal>>,
    total: u64,
    turned: bool,
}

impl Questions {
    /// Questions for a shard in this state, or for one that there is not.
    pub fn of(shard: Option<&Shard>) -> Self {
        let (held, known) =
            shard.map_or((0, &[][..]), |shard| (shard.tokens().len(), shard.known()));
        let far = [127, 128, 129, 1 << 31, 1 << 32, usize::MAX / 5, usize::MAX];
        let numbers = known.iter().map(|known| known.transaction.number);
        let next = numbers.clone().map(|number| number.wrapping_add(1));
        Questions {
            places: (0..=held.max(known.len())).chain(far).collect(),
            numbers: numbers
                .chain(next)
                .chain([0, 1, 1 << 31, u32::MAX])
                .collect(),
        }
    }

    /// Counts how the questions for findings are answered at a shard in this
    /// state, or at one that there is not.
    pub fn count_found(&self, tally: &mut Tally, shard: Option<&Shard>) {
        for &number in &self.numbers {
            tally.add(match found_at(shard, number) {
                Err(cause) => refused(cause.number()),
                Ok(found) => FOUND[found.iter().flatten().count()],
            });
        }
    }

    /// Answers by words, all of which are set beforehand.
    fn fill<const N: usize>(
        &self,
        at: impl Fn(usize, &mut [u32; N]) -> u32,
    ) -> Vec<(u32, [u32; N])> {
        let places = self.places.iter();
        places
            .map(|&k| {
                let mut words = [UNSET; N];
                (at(k, &mut words), words)
            })
            .collect()
    }

    fn each<T>(&self, told: impl Fn(u32) -> T) -> Vec<T> {
        self.numbers.iter().map(|&number| told(number)).collect()
    }

    /// The codes and words of findings at this shard.
    fn found(&self, shard: u32, memory: &impl Memory) -> Vec<(u32, FindingsWords)> {
        self.each(|number| {
            let mut words = LENT;
            (memory.findings(shard, number, &mut words), words)
        })
    }

    /// The words that the reference's state asks for.
    fn expected(&self, shard: Option<&Shard>) -> Words {
        let (tokens, known) =
            shard.map_or((&[][..], &[][..]), |shard| (shard.tokens(), shard.known()));
        Words {
            held: tokens.len(),
            tokens: self.fill(|k, words| {
                *words = tokens.get(k).map_or([0; 5], token_words);
                (k < tokens.len()).into()
            }),
            known: known.len(),
            transactions: self.fill(|k, words| {
                *words = known.get(k).map_or([0; KNOWN_WORDS], known_words);
                known
                    .get(k)
                    .map_or(3, |known| outcome_code(known.outcome()))
            }),
            outcomes: self.each(|number| {
                let mut known = known.iter();
                let found = known.find(|known| known.transaction.number == number);
                found.map_or(3, |known| outcome_code(known.outcome()))
            }),
            findings: self.each(|number| findings_words(found_at(shard, number), LENT)),
            total: tokens.iter().map(|token| u64::from(token.amount)).sum(),
            turned: shard.is_some_and(Shard::is_turned).into(),
        }
    }

    /// The same in types.
    fn expected_types(&self, shard: &Shard) -> Types {
        let transactions = engine::transactions(shard);
        Types {
            tokens: engine::tokens(shard),
            outcomes: self.each(|number| {
                let mut known = transactions.iter();
                let found = known.find(|known| known.transaction.number() == number);
                found.map(|known| known.outcome)
            }),
            transactions,
            findings: self.each(|number| {
                let found = found_at(Some(shard), number);
                found.map(|found| found.into_iter().flatten().collect())
            }),
            total: shard.total(),
            turned: shard.is_turned(),
        }
    }
}

/// What the reference's shard has found, or one that there is not.
fn found_at(shard: Option<&Shard>, number: u32) -> Result<Findings, Refusal> {
    let shard = shard.ok_or(Refusal::OutOfRange)?;
    shard.findings(shard.number(), number)
}

/// Compares every query of this shard in a cluster.
pub fn check_cluster(cluster: &Cluster, expected: &Shard) {
    let (number, questions) = (expected.number(), Questions::of(Some(expected)));
    let words = cluster_words(cluster, number.into(), &questions);
    assert_eq!(words, questions.expected(Some(expected)), "by words");
    let types = cluster_types(cluster, number, &questions);
    assert_eq!(types, questions.expected_types(expected), "in types");
}

/// Compares every query of a lone shard.
pub fn check_lone(shard: &plankeeper::Shard, expected: &Shard) {
    let (number, questions) = (expected.number(), Questions::of(Some(expected)));
    let memory = shard.memory();
    let words = Words {
        held: memory.held_count(),
        tokens: questions.fill(|k, words| memory.token_at(k, words)),
        known: memory.known_count(),
        transactions: questions.fill(|k, words| memory.known_at(k, words)),
        outcomes: questions.each(|number| memory.outcome_of(number)),
        findings: questions.found(memory.number(), memory),
        total: memory.total(),
        turned: memory.is_turned(),
    };
    assert_eq!(words, questions.expected(Some(expected)), "by words");
    let types = Types {
        tokens: shard.tokens().collect(),
        transactions: shard.transactions().collect(),
        outcomes: questions.each(|number| shard.outcome(number)),
        findings: questions.each(|asked| engine::findings(shard.findings(number, asked))),
        total: shard.total(),
        turned: shard.is_turned(),
    };
    assert_eq!(types, questions.expected_types(expected), "in types");
}

/// Sees that a lone shard refuses questions about another one.
pub fn check_other(shard: &plankeeper::Shard, other: u32, expected: &Shard) {
    let questions = Questions::of(Some(expected));
    let found = questions.found(other, shard.memory());
    let refused = questions.each(|_| findings_words(Err(Refusal::OutOfRange), LENT));
    assert_eq!(found, refused, "findings of shard {other}");
}

/// Sees that a shard that there is not, 8 or above, is an empty one, and that
/// questions for findings there are refused; the questions are another shard's.
pub fn check_none(cluster: &Cluster, number: u32, questions: &Questions) {
    let words = cluster_words(cluster, number, questions);
    assert_eq!(words, questions.expected(None), "shard {number} by words");
    if let Ok(number) = u8::try_from(number) {
        let types = cluster_types(cluster, number, questions);
        let nothing = Types {
            tokens: Vec::new(),
            transactions: Vec::new(),
            outcomes: questions.each(|_| None),
            findings: questions.each(|_| Err(Refusal::OutOfRange)),
            total: 0,
            turned: false,
        };
        assert_eq!(types, nothing, "shard {number} in types");
    }
}

fn cluster_words(cluster: &Cluster, shard: u32, questions: &Questions) -> Words {
    let memory = cluster.memory();
    Words {
        held: memory.held_count(shard),
        tokens: questions.fill(|k, words| memory.token_at(shard, k, words)),
        known: memory.known_count(shard),
        transactions: questions.fill(|k, words| memory.known_at(shard, k, words)),
        outcomes: questions.each(|number| memory.outcome_of(shard, number)),
        findings: questions.found(shard, memory),
        total: memory.total_at(shard),
        turned: memory.is_turned(shard),
    }
}

fn cluster_types(cluster: &Cluster, shard: u8, questions: &Questions) -> Types {
    Types {
        tokens: cluster.tokens(shard).collect(),
        transactions: cluster.transactions(shard).collect(),
        outcomes: questions.each(|number| cluster.outcome(shard, number)),
        findings: questions.each(|number| engine::findings(cluster.findings(shard, number))),
        total: cluster.total_at(shard),
        turned: cluster.is_turned(shard),
    }
}

fn token_words(token: &Token) -> TokenWords {
    let Token {
        creator,
        index,
        owner,
        amount,
        pledge,
    } = *token;
    [creator, index.into(), owner, amount, pledge.unwrap_or(0)]
}

fn known_words(known: &Known) -> KnownWords {
    let heard = known.heard.map(|verdict| match verdict {
        None => 0,
        Some(Verdict::No) => 1,
        Some(Verdict::Yes) => 2,
    });
    let mut words = [0; KNOWN_WORDS];
    let (transaction, verdicts) = words.split_at_mut(KNOWN_WORDS - heard.len());
    transaction.copy_from_slice(&to_words(&known.transaction));
    verdicts.copy_from_slice(&heard);
    words
}
