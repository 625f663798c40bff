//! Engine and reference side by side, compared after every call: the answer
//! and the whole state.

use std::fmt::Debug;

use engine::places::{ShardWords, name};
use engine::{Call, State, UNSET, Words, findings_words, play, shards};
use plankeeper::Ledger;
use plankeeper::boundary::{ClusterMemory, FINDINGS_WORDS, Memory, ShardMemory, taken};
use reference::{Answer, Cluster, LIMITS, Record, Refusal, Shard};
use weeks::{Before, Case, Playable, View, changes_nothing};

/// What a call brought, the same for both.
pub struct Played {
    /// The answer.
    pub answer: Answer,
    /// What counts need of the receiving shard before the call, if there is
    /// such a shard.
    pub before: Option<Before>,
}

/// What of an engine's state is looked at without the reference.
pub fn view(state: &State) -> View<'_> {
    View {
        tokens: &state.tokens,
        known: &state.known,
        turned: state.turned,
    }
}

/// A week played on both from empty. The engine's memory serves for many
/// weeks, so that each finds what the one before has left.
pub struct Player<'a, M, R> {
    engine: &'a mut Ledger<M>,
    reference: R,
    /// The engine's words after the call before.
    kept: Vec<ShardWords>,
    /// The states that those words tell of.
    states: Vec<State>,
    week: u64,
    call: u64,
}

/// A week of a lone shard.
pub type ShardPlayer<'a> = Player<'a, ShardMemory, Shard>;
/// A week of a cluster.
pub type ClusterPlayer<'a> = Player<'a, ClusterMemory, Cluster>;

impl<'a> ShardPlayer<'a> {
    /// Starts the week with this number.
    pub fn shard(week: u64, engine: &'a mut plankeeper::Shard) -> Self {
        let expected = Shard::new(engine.number(), LIMITS);
        Player::new(week, engine, expected)
    }
}

impl<'a> ClusterPlayer<'a> {
    /// Starts the week with this number.
    pub fn cluster(week: u64, engine: &'a mut plankeeper::Cluster) -> Self {
        Player::new(week, engine, Cluster::new(LIMITS))
    }

    /// Compares what comes of the record at the front of the bytes. Gives its
    /// fields too, if it could be read, and the bytes behind it.
    pub fn apply<'b>(&mut self, bytes: &'b [u8]) -> (Played, Option<Record>, &'b [u8]) {
        let expected = reference::read(bytes);
        let front = &bytes[..expected.taken];
        let _case = self.case(&front);
        let answer = engine::answer(self.engine.apply(bytes));
        let record = expected.outcome.as_ref().map_err(|&refusal| refusal);
        let played = self.compare(answer, record);
        let taken = taken(bytes);
        assert_eq!(taken, front.len(), "bytes taken");
        (played, expected.outcome.ok(), &bytes[taken..])
    }
}

impl<'a, M: Memory, R: Playable> Player<'a, M, R> {
    fn new(week: u64, engine: &'a mut Ledger<M>, reference: R) -> Self {
        engine.renew();
        let player = Player {
            kept: shards(engine).to_vec(),
            states: shards(engine).iter().map(State::of).collect(),
            engine,
            reference,
            week,
            call: 0,
        };
        player.compare_states();
        player
    }

    /// Compares what comes of the record's fields.
    pub fn call(&mut self, record: &Record) -> Played {
        self.make(Words::from(record), record)
    }

    /// Compares what comes of the words, whether they fit their fields or not.
    pub fn call_words(&mut self, words: Words) -> Played {
        self.make(words, &Record::from(&words))
    }

    fn make(&mut self, words: Words, record: &Record) -> Played {
        let _case = self.case(&words);
        let answer = engine::answer(play(self.engine, &Call::from(words)));
        self.compare(answer, Ok(record))
    }

    /// The engine.
    pub fn engine(&self) -> &Ledger<M> {
        self.engine
    }

    /// The reference.
    pub fn reference(&self) -> &R {
        &self.reference
    }

    /// The states that the engine's words tell of, equal to the reference's.
    pub fn states(&self) -> &[State] {
        &self.states
    }

    /// Compares the states of all shards. After a call that of the receiver is
    /// compared, and the engine's other words are those before it; here it
    /// shows that the reference has not changed another either.
    pub fn compare_states(&self) {
        for place in 0..self.states.len() {
            self.compare_state(place);
        }
    }

    /// Asks the engine after the last call, beside the reference. Fails if that
    /// has changed a word.
    pub fn ask(&self, compare: impl FnOnce(&Ledger<M>, &R)) {
        let _case = Case {
            week: self.week,
            call: self.call.saturating_sub(1),
            handed: &"what is asked after it",
        };
        compare(self.engine, &self.reference);
        let now = shards(self.engine).iter().zip(&self.kept);
        for (place, (now, kept)) in now.enumerate() {
            compare_words(place, now, kept);
        }
    }

    fn case<'c>(&mut self, handed: &'c dyn Debug) -> Case<'c> {
        let (week, call) = (self.week, self.call);
        self.call += 1;
        Case { week, call, handed }
    }

    /// Compares the engine after a call with the reference's answer and state:
    /// what a record's fields bring, or the reader's refusal.
    fn compare(&mut self, ours: Answer, record: Result<&Record, Refusal>) -> Played {
        let shards_before = self.reference.shards();
        let before = record
            .ok()
            .and_then(|record| Before::of(shards_before, record));
        let place = before.as_ref().map(|before| before.place);
        let answer = record.and_then(|record| self.reference.play(record));
        assert_eq!(ours, answer, "answer");

        // A call changes its receiver alone, if anything.
        let changed = place.filter(|_| !changes_nothing(answer));
        let now = shards(self.engine);
        for (place, (now, kept)) in now.iter().zip(&self.kept).enumerate() {
            if Some(place) != changed {
                compare_words(place, now, kept);
            }
        }
        if let Some(place) = changed {
            self.kept[place] = now[place];
            self.states[place].read(&now[place]);
        }
        if let Some(place) = place {
            self.compare_state(place);
            self.compare_findings(place);
        }
        let (total, expected) = (self.engine.total(), self.reference.total());
        assert_eq!(total, expected, "total");
        Played { answer, before }
    }

    /// Asks the receiver for the findings of every transaction that it knows, and
    /// for what it has to refuse: the number behind the last one's, which is
    /// seldom known, and after each call another of those that never are.
    fn compare_findings(&self, place: usize) {
        let shard = &self.reference.shards()[place];
        let number = shard.number();
        for known in shard.known() {
            self.compare_found(number.into(), known.transaction.number);
        }
        if let Some(known) = shard.known().last() {
            let next = known.transaction.number.wrapping_add(1);
            self.compare_found(number.into(), next);
        }
        let number = number.into();
        let never = [(number, 0), (number, u32::MAX), (8, 1), (number + 256, 1)];
        let (shard, transaction) = never[self.call as usize % never.len()];
        self.compare_found(shard, transaction);
    }

    /// Compares the answer to the question for the findings of this number, and
    /// all words that are lent for them.
    fn compare_found(&self, shard: u32, number: u32) {
        let mut words = [UNSET; FINDINGS_WORDS];
        let code = self.engine.memory().findings(shard, number, &mut words);
        // A word too wide stands for a shard that there is not.
        let narrow = u8::try_from(shard).unwrap_or(u8::MAX);
        let found = self.reference.findings(narrow, number);
        let expected = findings_words(found, [UNSET; FINDINGS_WORDS]);
        assert_eq!(
            (code, words),
            expected,
            "findings of {number} at shard {shard}: {found:?}"
        );
    }

    fn compare_state(&self, place: usize) {
        let shard = &self.reference.shards()[place];
        if let Some(difference) = self.states[place].difference(shard) {
            panic!("state of shard {}: {difference}", shard.number());
        }
    }
}

/// Fails unless the shard at this place has all words as they were, those
/// behind its tokens and transactions too.
fn compare_words(place: usize, now: &ShardWords, kept: &ShardWords) {
    if now != kept {
        let word = (0..now.len()).find(|&word| now[word] != kept[word]);
        let word = word.expect("some word differs");
        panic!(
            "the shard at place {place} has changed: word {word} ({}) was {}, is {}",
            name(word),
            kept[word],
            now[word]
        );
    }
}
