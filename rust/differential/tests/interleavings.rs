//! Every order of small scenarios: engine against reference, and the engine's
//! states against demand 3's clauses.

use std::collections::BTreeMap;
use std::{array, thread};

use differential::{ClusterPlayer, Player, view};
use plankeeper::Cluster;
use reference::Record;
use weeks::{
    Clauses, Giver, Scenario, Tally, carried_out, changes_nothing, label, never_given_by,
    scenarios, share_out,
};

/// Printed beside a failing call: there, an order counts as a week.
struct Name(&'static str);

impl Drop for Name {
    fn drop(&mut self) {
        if thread::panicking() {
            eprintln!("the week is an order of: {}", self.0);
        }
    }
}

/// What the orders of one scenario brought.
struct Played {
    orders: u64,
    tally: Tally,
    title: String,
}

/// What one order brought.
struct Followed {
    clauses: Clauses,
    /// Whether every committed transaction was decided at all its shards when
    /// the repeats began, and in the end.
    whole: [bool; 2],
}

/// Plays an order's calls and its repeats, and holds the engine's states to the
/// clauses after every call.
fn follow(player: &mut ClusterPlayer, parts: [&[Record]; 2], tally: &mut Tally) -> Followed {
    let mut clauses = Clauses::new();
    let mut whole = false;
    let whole = parts.map(|records| {
        for record in records {
            let answer = player.call(record).answer;
            tally.add(label(answer));
            let views = array::from_fn(|shard| view(&player.states()[shard]));
            clauses.step(record, answer.is_err(), &views);
            // A repeat adds nothing, and neither does a refused call.
            if !changes_nothing(answer) {
                whole = clauses.serial();
            }
        }
        whole
    });
    player.compare_states();
    Followed { clauses, whole }
}

/// Plays every order of the scenario on the engine and on the reference.
fn play(scenario: &Scenario, cluster: &mut Cluster) -> Played {
    let _name = Name(scenario.name);
    let mut tally = Tally::default();
    let mut ends: BTreeMap<Vec<u32>, u64> = BTreeMap::new();
    let mut whole_orders = 0;
    let orders = scenario.orders(|order, calls, repeats| {
        let mut player = Player::cluster(order, cluster);
        let followed = follow(&mut player, [calls, repeats], &mut tally);
        let [early, whole] = followed.whole;
        whole_orders += u64::from(early);
        assert!(whole, "order {order} leaves a transaction undecided");
        let committed = followed.clauses.committed_numbers();
        *ends.entry(committed).or_default() += 1;
    });
    let title = format!(
        "{}: {orders} orders, {whole_orders} all decided before the repeats; \
         commits in serial order: {ends:?}",
        scenario.name
    );
    // No order leads to anything else, and each end is reached.
    let ends: Vec<&[u32]> = ends.keys().map(Vec::as_slice).collect();
    assert_eq!(ends, scenario.ends, "{}", scenario.name);
    Played {
        orders,
        tally,
        title,
    }
}

/// The scenarios are shared out among the processors.
#[test]
fn every_order_of_every_scenario() {
    let scenarios = scenarios();
    let played = share_out(scenarios.len() as u64, |jobs| {
        let mut cluster = engine::cluster();
        let scenarios = jobs.map(|job| &scenarios[job as usize]);
        let played = scenarios.map(|scenario| play(scenario, &mut cluster));
        played.collect::<Vec<_>>()
    });
    let played: Vec<Played> = played.into_iter().flatten().collect();
    assert_eq!(played.len(), scenarios.len());
    let (mut orders, mut all) = (0, Tally::default());
    for scenario in played {
        scenario.tally.print(&scenario.title);
        orders += scenario.orders;
        all.join(scenario.tally);
    }
    let title = format!("all scenarios, {orders} orders");
    all.report(&title, &carried_out(), 1000);
    let refused = [7, 8, 16, 17, 19].map(|number| format!("REFUSED {number}"));
    all.check(&title, &refused, 1000);
    all.check_never(&title, &never_given_by(&[Giver::Cluster]));
    assert_eq!(orders, 707_273, "orders");
}
