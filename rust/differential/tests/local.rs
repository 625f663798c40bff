//! The local step of every registration, on the engine's states alone: the
//! inputs of the shard, the available ones among them, the pledges and the
//! message, as documents 000 and 01 have them; and what it has found of each
//! input, as the engine keeps it and as it tells it (document 02, slip 2). The
//! reference only helps to make the weeks.

use differential::{Rng, SEED, shards, view};
use engine::{Call, State, cluster};
use plankeeper::Ledger;
use plankeeper::boundary::Memory;
use reference::Record;
use weeks::{
    Case, Registration, Tally, changes_nothing, cluster_week, count_weeks, finding_labels, label,
    receiver, registering, registration_labels, second_cause_labels, shard_week,
};

const CLUSTER_WEEKS: u64 = 5_000;
const SHARD_WEEKS: u64 = 10_000;
const REGISTRATIONS: usize = 180_000;
/// How often each answer to a registration has to be met, and each thing that
/// one can show.
const LEAST: u64 = 200;

/// Plays the week on the engine and looks at every registration. Gives their
/// number.
fn follow<M: Memory>(
    ledger: &mut Ledger<M>,
    tally: &mut Tally,
    week: u64,
    records: &[Record],
) -> usize {
    ledger.renew();
    let mut states: Vec<State> = engine::shards(ledger).iter().map(State::of).collect();
    let mut registrations = 0;
    for (call, handed) in (0..).zip(records) {
        let _case = Case { week, call, handed };
        let answer = engine::answer(engine::play(ledger, &Call::from(handed)));
        if changes_nothing(answer) {
            continue;
        }
        let mut numbers = states.iter().map(|state| state.number);
        let place = numbers.position(|number| number == receiver(handed));
        let place = place.expect("it has received the call");
        let after = State::of(&engine::shards(ledger)[place]);
        if let Some(registration) = Registration::of(handed, answer, view(&states[place])) {
            let fault = registration.fault(view(&after));
            assert_eq!(fault, None, "{registration:?}, and now {after:?}");
            let number = registration.transaction().number;
            let told = engine::findings(ledger.findings(receiver(handed), number));
            let told = told.expect("it is known");
            let true_ones = registration.found(told.iter());
            assert!(true_ones, "{registration:?}, and found {told:?}");
            registration.count(tally);
            tally.add(label(answer));
            registrations += 1;
        }
        states[place] = after;
    }
    registrations
}

/// Fails if something was not shown often enough.
fn report(title: &str, (tally, registrations): (Tally, usize)) {
    let title = format!("{title}, {registrations} registrations");
    assert!(registrations >= REGISTRATIONS, "{title} only");
    tally.report(&title, &registration_labels(), LEAST);
    tally.check(&title, &registering(), LEAST);
    tally.check(&title, &finding_labels(), LEAST);
    tally.check(&title, &second_cause_labels(), LEAST / 10);
}

#[test]
fn local_steps_of_a_cluster() {
    let counted = count_weeks(CLUSTER_WEEKS, cluster, |cluster, tally, week| {
        let records = cluster_week(&mut Rng::new(SEED, week));
        follow(cluster, tally, week, &records)
    });
    report("local steps of a cluster", counted);
}

#[test]
fn local_steps_of_a_shard() {
    let counted = count_weeks(SHARD_WEEKS, shards, |shards, tally, week| {
        let (number, records) = shard_week(&mut Rng::new(SEED, week));
        let shard = &mut shards[usize::from(number)];
        follow(shard, tally, week, &records)
    });
    report("local steps of a shard", counted);
}
