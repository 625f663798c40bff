//! What all orders of a scenario bring together, counted by hand.

use std::collections::BTreeMap;

use reference::{Cluster, LIMITS};
use weeks::{Before, Clauses, Tally, scenarios, views};

/// What all orders of a scenario have brought.
struct Played {
    orders: u64,
    tally: Tally,
    /// How often each end was reached: the commits in serial order.
    ends: BTreeMap<Vec<u32>, u64>,
    /// How often that order is one by registrations that votes have brought.
    by_votes: u64,
}

/// Plays every order of the scenario of this name, with its repeats, on the
/// reference.
fn play(name: &str) -> Played {
    let mut scenarios = scenarios().into_iter();
    let scenario = scenarios.find(|scenario| scenario.name == name);
    let (mut tally, mut ends, mut by_votes) = (Tally::default(), BTreeMap::new(), 0);
    let orders = scenario.expect(name).orders(|_, calls, repeats| {
        let (mut cluster, mut clauses) = (Cluster::new(LIMITS), Clauses::new());
        let mut events = tally.week();
        for record in calls.iter().chain(repeats) {
            let before = Before::of(cluster.shards(), record);
            let answer = cluster.play(record);
            events.call(record, answer, before, cluster.shards());
            clauses.step(record, answer.is_err(), &views(&cluster));
        }
        *ends.entry(clauses.committed_numbers()).or_default() += 1;
        by_votes += u64::from(clauses.is_ordered_by_votes());
    });
    Played {
        orders,
        tally,
        ends,
        by_votes,
    }
}

impl Played {
    /// Compares how often each answer and event was met.
    fn check(&self, expected: &[(&str, u64)]) {
        for &(label, count) in expected {
            assert_eq!(self.tally.count(label), count, "{label}");
        }
    }
}

// One no or two. Transaction 5 has the shards 0, 1 and 2, each of which hears the
// other two, and shard 0 votes no on it. Transaction 6 takes at shard 1 what 5
// takes there and what 5 is to make there.

const ONE_NO: &str = "one no or two of three votes, and a transaction behind them";

/// Without 6 there are nine steps. The first two are registrations, in 6 ways;
/// of the other seven the third registration comes before the four deliveries
/// that need it: 7! / 5 = 1008. The registration of 6 may stand at ten places.
const ORDERS: u64 = 6 * 1008 * 10;

/// Orders in which 6 comes to shard 1 before 5, so that shard 1 votes no on 5,
/// too. As many places are before the registration of 5 as its own place says:
/// it is the first, the second, or the third with 0, 1 or 2 deliveries before.
const BEFORE: u64 = 2016 + 2016 * 2 + 2 * (720 * 3 + 240 * 4 + 48 * 5);

/// Orders in which 6 is behind. Shard 0 alone votes no on 5 then.
const BEHIND: u64 = ORDERS - BEFORE;

/// Of these, shard 1 hears the yes of 2 before the no of 0 in every second one:
/// 0 and 2 may change places.
const YES_FIRST_AT_1: u64 = BEHIND / 2;

/// And shard 2 the yes of 1 before the no of 0, by who registers 5 last: where
/// it is shard 2, each of the two votes may be first; where it is 0, the yes may
/// come even before that; where it is 1, the no may not. Each time there are so
/// many places for 6.
const YES_FIRST_AT_2: u64 = 504 * (8 + 9) + (504 + 84) * (8 + 9) + 2 * (360 * 7 + 60 * 6);

/// How often, at shard 1 or 2, the one no comes first.
const NO_FIRST: u64 = 2 * BEHIND - YES_FIRST_AT_1 - YES_FIRST_AT_2;

/// The place of the no at shard 1, added up over the orders without 6: one more
/// than the steps before it, which are counted step by step. It is on the
/// average 6 where shard 2 registers 5 last, else 6 and two thirds.
const PLACES_OF_THE_NO: u64 = 2 * 6048 + 4 * 6720;

/// Likewise the place of the no or of the yes there, whichever comes first: by
/// who registers last, 0 or 2, or else 1.
const PLACES_OF_THE_FIRST: u64 = 4 * 5088 + 2 * 5600;

#[test]
fn one_no_or_two() {
    let played = play(ONE_NO);
    assert_eq!(played.orders, ORDERS, "orders");
    played.check(&[
        // No step is too early, so there are no repeats.
        ("REFUSED 8", 0),
        // On 5 one or two, on 6 one.
        ("NO ABORT", 3 * BEFORE + 2 * BEHIND),
        ("YES WAIT", BEFORE + 2 * BEHIND),
        // Six deliveries in every order.
        ("HEARD WAIT", YES_FIRST_AT_1 + YES_FIRST_AT_2),
        ("HEARD ABORT", 6 * ORDERS - YES_FIRST_AT_1 - YES_FIRST_AT_2),
        ("HEARD COMMIT", 0),
        ("aborted early, by its own no", ORDERS + BEFORE),
        // Of two noes shard 2 hears one first.
        ("aborted early, by a no heard", NO_FIRST + BEFORE),
        // At shard 0 one yes or two; of two noes shard 1 has given one, and
        // hears one yes.
        ("yes after an abort", 2 * BEFORE + 2 * BEHIND + NO_FIRST),
        // Of two noes one at each shard.
        ("no after an abort", 3 * BEFORE),
        // At shard 0 always.
        (
            "all votes in after an early abort",
            ORDERS + 2 * BEFORE + NO_FIRST,
        ),
        // 6 pledges the token and is voted no.
        ("no, with a pledge", BEFORE),
    ]);
}

/// 6 is held off where it stands between the registration of 5 at shard 1 and
/// the no there: as many places as these two are apart. It comes through while
/// the yes is missing where the no comes before that and 6 before the yes.
#[test]
fn held_off_until_the_no() {
    const HELD_OFF: u64 = PLACES_OF_THE_NO - BEFORE;
    const PLACES_OF_THE_LAST: u64 = 2 * PLACES_OF_THE_NO - PLACES_OF_THE_FIRST;
    play(ONE_NO).check(&[
        ("held off, later aborted", HELD_OFF),
        ("held off, later committed", 0),
        (
            "not held off, another aborted early",
            (PLACES_OF_THE_LAST - BEFORE) / 2,
        ),
    ]);
}

// Tokens that come free. Transaction 5 takes the tokens of the shards 0 and 1,
// transaction 6 that of shard 1 alone and 7 that of shard 0 alone. The eight
// steps may come in any order: at each shard its registration of 5, the
// delivery of the other's vote on 5, the registration of 6 or 7, and the turn.
// All is the same with the shards changed about.
//
// A and B are the registrations of 5 at the shards 0 and 1, Y is the delivery
// to shard 0, and X the one to shard 1. Where A is before B, 5 comes to shard 0
// with A, and to shard 1 with B; or with X, if that stands between the two. X
// has no effect before A, and Y has none before 5 has come to shard 1: these
// are refused, and come again in the repeats.

const FREED: &str = "contended tokens that come free, at shards that turn at any time";

/// All orders.
const EIGHT: u64 = 40_320;

/// Orders of which something is asked that depends on five steps, six or seven:
/// so many for each order of these.
const OF_FIVE: u64 = EIGHT / 120;
const OF_SIX: u64 = EIGHT / 720;
const OF_SEVEN: u64 = EIGHT / 5040;

// Where A is before B, there are 20 orders of A, B, X, 6 and 7 each with X
// between A and B, behind both and before both. 5 comes before 7 to shard 0 and
// before 6 to shard 1 in 8, 8 and 3 of them, first to shard 0 only in 7, 7 and
// 7, first to shard 1 only in 2, 2 and 2, and first to neither in 3, 3 and 8.
// Where B is before A it is the same with Y, and with the shards changed about.

/// 5 is first at both shards.
const FIRST_AT_BOTH: u64 = 2 * (8 + 8 + 3) * OF_FIVE;

/// It is first at shard 0 and second at shard 1. Then shard 1 votes no on it,
/// and shard 0, which has voted yes, frees its token sooner or later.
const FIRST_AT_0: u64 = (7 + 7 + 7 + 2 + 2 + 2) * OF_FIVE;

/// It is second at both.
const SECOND_AT_BOTH: u64 = 2 * (3 + 3 + 8) * OF_FIVE;

/// Of these, a delivery brings it: where X is between A and B, or Y between B
/// and A. Where 5 is first at one shard only, it is brought to the other or to
/// that.
const BROUGHT_FIRST_AT_BOTH: u64 = 2 * 8 * OF_FIVE;
const BROUGHT_WHERE_SECOND: u64 = 2 * 7 * OF_FIVE;
const BROUGHT_WHERE_FIRST: u64 = 2 * 2 * OF_FIVE;
const BROUGHT_SECOND_AT_BOTH: u64 = 2 * 3 * OF_FIVE;

/// 5 is first at shard 0 only, which hears the no with Y in its place, before
/// 7. Of the orders of A, B, X, Y, 6 and 7 these are: A and 6, then X, then Y
/// before 7, and B anywhere behind X; A and 6, then B, Y and 7, and X anywhere
/// but between A and B; 6, B, Y, A, 7, or 6, B, Y, 7, A, or 6, B, A, Y, 7, and
/// X anywhere.
const NO_BEFORE_SEVEN: u64 = 2 * 3 + (4 + 5) + 3 * 6;

/// The places of 7 in these, added up.
const PLACES_OF_SEVEN: u64 = 2 * 17 + (23 + 29) + 35 + 28 + 35;

/// The turn of shard 0 comes before 7, too, so that 7 spends the freed token.
const SPENT: u64 = PLACES_OF_SEVEN * OF_SEVEN;

/// And it comes behind 7, which finds the token bound.
const STILL_BOUND: u64 = (7 * NO_BEFORE_SEVEN - PLACES_OF_SEVEN) * OF_SEVEN;

/// The turn of shard 0 comes behind the no and frees the token. The orders are
/// those, with 7 anywhere behind 5 at shard 0; the places behind Y, added up.
const NO_BEFORE_TURN: u64 = (33 + 46 + 2 * 21 + 21) * OF_SEVEN;

/// The turn comes before the no, and this brings 5 to shard 0: 6, B, Y, and
/// then A and 7, with X anywhere. The places before Y, added up.
const FREED_BY_THE_NO: u64 = 2 * 21 * OF_SEVEN;

/// Of the orders of A, B, X, Y, 7 and the turn of shard 0: 5 comes there before
/// 7 and before the turn, with A before B, with Y behind B, or with A behind B;
/// less those in which Y then decides it before the turn, 5 having come to
/// shard 1 with X, or with B, or Y having brought it, or A behind B.
const UNDECIDED_AT_TURN: u64 = (180 + 36 + 48 - (15 + 19 + 36 + 18)) * OF_SIX;

/// 7 commits at shard 0 although the token never was 5's, behind the turn. 7 is
/// between the turn and 5, which comes with A before B, with Y, or with A
/// behind B.
const TURN_SEVEN_FIVE: u64 = (30 + 18 + 54) * OF_SIX;

/// 5 is first at both shards, and Y comes to shard 0 before the turn. Of the
/// orders of A, B, X, Y, 6 and 7, where 5 comes to shard 1 with X, or with B
/// behind A, or to shard 0 with Y, or with A behind B: the places behind Y,
/// added up.
const FIVE_BEFORE_TURN: u64 = (72 + 87 + 210 + 105) * OF_SEVEN;

#[test]
fn contended_tokens_come_free() {
    let played = play(FREED);
    assert_eq!(played.orders, EIGHT, "orders");
    let either_first = SECOND_AT_BOTH / 2 + SPENT;
    let ends = [
        (vec![5], FIRST_AT_BOTH),
        (vec![6], FIRST_AT_0 - SPENT),
        // 5 second at both shards, and every second time 6 before 7.
        (vec![6, 7], either_first),
        (vec![7], FIRST_AT_0 - SPENT),
        (vec![7, 6], either_first),
    ];
    assert_eq!(played.ends, ends.into());
    let noes_on_five = 2 * SECOND_AT_BOTH + 2 * FIRST_AT_0;
    let brought_noes = BROUGHT_SECOND_AT_BOTH + BROUGHT_WHERE_SECOND;
    played.check(&[
        // Each shard is turned once, and not a second time by the repeats.
        ("TURNED", 2 * EIGHT),
        ("REFUSED 19", 2 * EIGHT),
        // On 5, on 6 and 7, and on one of these, unless it is freed in time.
        (
            "NO ABORT",
            noes_on_five - brought_noes + 2 * FIRST_AT_BOTH + 2 * (FIRST_AT_0 - SPENT),
        ),
        ("YES COMMIT", 2 * SECOND_AT_BOTH + 2 * (FIRST_AT_0 + SPENT)),
        ("brought NO ABORT", brought_noes),
        ("brought YES COMMIT", BROUGHT_FIRST_AT_BOTH),
        // The other shard has voted no.
        ("brought YES ABORT", BROUGHT_WHERE_FIRST),
        ("brought by a no, own no", BROUGHT_SECOND_AT_BOTH),
        ("brought by a yes, own no", BROUGHT_WHERE_SECOND),
        // In a third of the orders, and again in the repeats.
        ("brought, registered too late", 2 * EIGHT / 3),
        ("REFUSED 11", 0),
        // X before A, in 4 of 12 orders, or Y before 5 is at shard 1, in 7 of
        // them.
        ("REFUSED 16", 2 * (4 + 7) * EIGHT / 24),
    ]);
}

#[test]
fn tokens_are_freed_and_spent() {
    play(FREED).check(&[
        ("freed and spent", 2 * SPENT),
        ("freed by a turn", 2 * NO_BEFORE_TURN),
        (
            "brought, freed by the no that brought it",
            2 * FREED_BY_THE_NO,
        ),
        // In the repeats at the latest.
        (
            "freed by a no heard last",
            2 * (FIRST_AT_0 - NO_BEFORE_TURN - FREED_BY_THE_NO),
        ),
        // 5 has two shards, so a no is the last vote. At one shard it takes one
        // token: nothing is available there if it votes no.
        ("freed by a no heard early", 0),
        ("freed by its own no", 0),
        ("no, pledged to an aborted one", 2 * STILL_BOUND),
        ("pledged over a turn", 2 * UNDECIDED_AT_TURN),
        (
            "committed at a turned shard",
            2 * (TURN_SEVEN_FIVE + SPENT + FIRST_AT_BOTH - FIVE_BEFORE_TURN),
        ),
    ]);
}

// Brought to two shards. Transaction 5 has the shards 0, 1 and 2 and is
// registered at shard 0 alone; the other six of the seven steps are the
// deliveries. Those before the registration are refused. Behind it the vote of
// 0 brings 5 to 1 and to 2, unless the other one's vote has brought it there
// before.

/// All orders.
const SEVEN: u64 = 5040;

/// The vote of shard 1, or that of shard 2, to another: behind the registration
/// and then the vote of 0 to its sender, in 20 orders of the five steps, or
/// behind the registration and both votes by way of the other shard, in 5; in 3
/// it is both.
const IN_TIME: u64 = (20 + 5 - 3) * SEVEN / 120;

/// Two votes of shard 0 are refused in every second order, the others where
/// they are not in time.
const TOO_EARLY: u64 = 2 * SEVEN / 2 + 4 * (SEVEN - IN_TIME);

/// Shard 1 has 5 from shard 0 and brings it to shard 2: the registration, the
/// vote of 0 to 1 and that of 1 to 2 are in this order, and the vote of 0 to 2
/// is before all three or behind them.
const BY_WAY_OF_1: u64 = 2 * SEVEN / 24;

#[test]
fn registered_at_one_shard() {
    let played = play("a transaction of three shards that is registered at one");
    assert_eq!(played.orders, SEVEN, "orders");
    assert_eq!(played.ends, [(vec![5], SEVEN)].into());
    played.check(&[
        // At shard 0, and once more in the repeats.
        ("YES WAIT", SEVEN),
        ("REFUSED 8", SEVEN),
        // To each of the others once, in the repeats at the latest. Each then
        // waits for one vote, and shard 0 for two.
        ("brought YES WAIT", 2 * SEVEN),
        ("brought, later committed", 2 * SEVEN),
        ("HEARD WAIT", SEVEN),
        ("HEARD COMMIT", 3 * SEVEN),
        // All three have voted then, so it has come to both of the others.
        ("committed, brought to two of its shards or more", 3 * SEVEN),
        ("REFUSED 16", TOO_EARLY),
        ("REFUSED 11", 0),
        (
            "brought by the vote of one that was brought",
            2 * BY_WAY_OF_1,
        ),
    ]);
    // What had its effect in its place is heard again in the repeats.
    let again = ["AGAIN WAIT", "AGAIN COMMIT"].map(|label| played.tally.count(label));
    assert_eq!(again.iter().sum::<u64>(), 6 * SEVEN - TOO_EARLY);
}

/// The votes of 1 and of 2 are both in time at shard 0: both behind the vote of
/// 0 to their sender, in 252 orders; or one of them by way of the other shard,
/// in 126 each; or both, in 20. Less those in which one is in time by either
/// way, in 77 each and 19 each, and again the 18 in which both are.
const BOTH_IN_TIME: u64 = 252 + 2 * 126 + 20 - 2 * 77 - 2 * 19 + 18;

/// Shard 0 hears the yes of 2 before the no of 1: where that one alone is in
/// time, and in every second order in which both are. The repeats have the no
/// first.
const YES_FIRST_AT_0: u64 = IN_TIME - BOTH_IN_TIME / 2;

/// The same steps. Shard 1 has no token and votes no.
#[test]
fn registered_at_one_shard_and_one_no() {
    let played = play("a transaction of three shards that is registered at one, and one no");
    assert_eq!(played.orders, SEVEN, "orders");
    assert_eq!(played.ends, [(vec![], SEVEN)].into());
    played.check(&[
        // Shard 1, whoever has brought it there: neither of the others votes
        // no.
        ("brought NO ABORT", SEVEN),
        ("brought by a yes, own no", SEVEN),
        // Shard 2, by the no of shard 1 or by the yes of shard 0.
        ("brought YES ABORT", BY_WAY_OF_1),
        ("brought YES WAIT", SEVEN - BY_WAY_OF_1),
        ("brought, later aborted", SEVEN - BY_WAY_OF_1),
        ("HEARD WAIT", YES_FIRST_AT_0),
        ("HEARD ABORT", 4 * SEVEN - YES_FIRST_AT_0),
        ("aborted early, by its own no", SEVEN),
        // At shard 0 and at shard 2.
        (
            "aborted early, by a no heard",
            SEVEN - YES_FIRST_AT_0 + BY_WAY_OF_1,
        ),
        // At shard 1 two, the one that has brought it there and the other.
        (
            "yes after an abort",
            2 * SEVEN + SEVEN - YES_FIRST_AT_0 + BY_WAY_OF_1,
        ),
        ("no after an abort", 0),
        ("REFUSED 16", TOO_EARLY),
    ]);
}

// A chain. Transaction 5 goes from shard 0 to shard 1, and is registered there
// alone; 6 takes its token there and goes to shard 2, and is registered there
// alone. The other four of the six steps are the deliveries; that of 6 to shard
// 1 comes again after each step as long as it is held off.

/// All orders.
const SIX: u64 = 720;

/// The vote of shard 2 brings 6 to shard 1 before that has registered 5: no.
const BEFORE_FIVE: u64 = SIX / 6;

/// It comes behind the registrations of 5 and of 6; but not behind the decision
/// of 5, with its registration and its two votes in this order, and that of 6
/// at any of four places before it.
const HELD_OFF_AT_1: u64 = SIX / 3 - 4 * SIX / 120;

#[test]
fn a_chain_is_brought() {
    let played = play("a chain across three shards, brought to its second one while held off");
    assert_eq!(played.orders, SIX, "orders");
    let ends = [(vec![5], BEFORE_FIVE), (vec![5, 6], SIX - BEFORE_FIVE)];
    assert_eq!(played.ends, ends.into());
    // 6 is registered at shard 2 before 5 is at shard 1, and does not come to
    // shard 1 before that: the brought registration alone puts it behind.
    assert_eq!(played.by_votes, SIX / 2 - BEFORE_FIVE, "by votes");
    played.check(&[
        ("YES WAIT", 2 * SIX),
        // 5 at shard 0, and 6 at shard 1: each is of two shards.
        ("brought YES COMMIT", SIX + SIX - BEFORE_FIVE),
        ("brought NO ABORT", BEFORE_FIVE),
        ("brought by a yes, own no", BEFORE_FIVE),
        ("held off, later committed", HELD_OFF_AT_1),
        ("held off, later aborted", 0),
        ("vote refused with 17, later brought", HELD_OFF_AT_1),
        ("REFUSED 11", 0),
    ]);
}

// Two conflicting transactions. 5 and 6 both take the tokens of the shards 0
// and 1. 5 is registered at shard 0 and brought to shard 1, 6 the other way
// round. There are the two registrations, four deliveries and two turns. In the
// repeats 5 is brought before 6, and all shards are turned.

/// 5 comes to shard 1 before 6 is registered there, and so is first at both; 6
/// likewise.
const ONE_AT_BOTH: u64 = EIGHT / 6;

/// Else each is first where it is registered. Both are brought in their place,
/// behind both registrations: 6 commits where 5 is brought first, its no comes
/// to shard 0, and 6 is brought there behind that and behind the turn, for
/// which there are 5 places. The other vote and the other turn may stand
/// anywhere. Likewise 5.
const FREED_IN_TIME: u64 = 2 * 5 * 7 * 8;

/// 5 is brought in its place, behind both registrations, and 6 only in the
/// repeats: 6 commits. So it does where both are brought in the repeats.
const SIX_IN_THE_REPEATS: u64 = 3 * EIGHT / 24 + EIGHT / 4;

/// 6 is brought in its place and 5 in the repeats, before anything else: 5
/// commits if the no on 6 is heard in its place.
const FIVE_IN_THE_REPEATS: u64 = 3 * EIGHT / 120;

#[test]
fn a_contended_pair_is_brought() {
    let played = play("two conflicting transactions that each are brought to the other's shard");
    assert_eq!(played.orders, EIGHT, "orders");
    let five = ONE_AT_BOTH + FREED_IN_TIME + FIVE_IN_THE_REPEATS;
    let six = ONE_AT_BOTH + FREED_IN_TIME + SIX_IN_THE_REPEATS;
    let ends = [
        (vec![], EIGHT - five - six),
        (vec![5], five),
        (vec![6], six),
    ];
    assert_eq!(played.ends, ends.into());
    let noes = 2 * EIGHT - five - six;
    played.check(&[
        // Each is brought once, and one that finds its second token commits
        // with it.
        ("brought YES COMMIT", five + six),
        ("brought NO ABORT", noes),
        // The one that is second at both shards.
        ("brought by a no, own no", 2 * ONE_AT_BOTH),
        ("brought by a yes, own no", noes - 2 * ONE_AT_BOTH),
        ("brought YES ABORT", 0),
        ("brought YES WAIT", 0),
        ("freed and spent", five + six - 2 * ONE_AT_BOTH),
        ("REFUSED 11", 0),
    ]);
}
