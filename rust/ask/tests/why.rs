//! What the pantries tell of weeks, by hand from documents 01 and 02.

use std::collections::{BTreeMap, BTreeSet};
use std::fs;

use ask::why::{Refused, Why};
use ask::{Week, cause};
use plankeeper::Refusal;
use program::{root, week_files, weeks};
use reference::{Finding, LIMITS};

fn week(text: &str) -> Week {
    Week::of_text(text.as_bytes()).expect("the week has no error")
}

fn stored(name: &str) -> Week {
    let file = root().join("weeks").join(name);
    week(&fs::read_to_string(file).expect("the week can be read"))
}

fn ask(week: &Week, pantry: u32, swap: u32) -> Result<String, Refused> {
    Why { pantry, swap }.answer(week)
}

/// What is told where the pantry does not know the swap.
fn refused(week: &Week, pantry: u32, swap: u32) -> String {
    ask(week, pantry, swap)
        .expect_err("it is not known")
        .to_string()
}

/// An opening token of pantry 0, with what was found of it.
fn opening(input: u32, position: u32, holding: &str, found: &str) -> String {
    let token = format!("token (pantry 0, making swap 0, position {position})");
    format!("input {input}, {token}, household {holding} portions: {found}\n")
}

/// The week's own comments, as the pantries tell them.
#[test]
fn the_week_of_findings() {
    let week = stored("findings.txt");
    let told = |pantry, swap| ask(&week, pantry, swap).expect("it is known");
    assert_eq!(
        told(0, 1),
        "swap 1 at pantry 0, voted YES, outcome COMMIT\n".to_owned()
            + &opening(1, 0, "10, 3", "available")
    );
    assert_eq!(
        told(0, 2),
        "swap 2 at pantry 0, voted NO, outcome ABORT\n".to_owned()
            + &opening(1, 9, "11, 2", "not held")
            + &opening(2, 1, "10, 2", "other household")
            + &opening(3, 2, "12, 3", "other portions")
            + &opening(4, 0, "10, 3", "pledged to swap 1")
    );
    assert_eq!(
        told(0, 3),
        "swap 3 at pantry 0, voted NO, outcome ABORT\n".to_owned()
            + &opening(1, 1, "12, 3", "other household")
            + &opening(2, 0, "10, 4", "other portions")
            + &opening(4, 2, "12, 4", "available")
    );
    assert_eq!(
        told(0, 4),
        "swap 4 at pantry 0, voted NO, outcome ABORT\n".to_owned()
            + &opening(1, 2, "12, 4", "pledged to swap 3")
    );
    assert_eq!(
        told(0, 6),
        "swap 6 at pantry 0, voted NO, outcome ABORT\n\
         input 1, token (pantry 0, making swap 5, position 0), household 60, 4 portions: available\n"
            .to_owned()
            + &opening(2, 2, "12, 4", "not held")
    );
}

/// Of swaps that votes have brought, and of pantries that take part with outputs
/// only.
#[test]
fn other_pantries_of_the_week() {
    let week = stored("findings.txt");
    let token = "token (pantry 1, making swap 0, position 0), household 20, 5 portions";
    let cases = [
        (
            1,
            3,
            format!("swap 3 at pantry 1, voted YES, outcome ABORT\ninput 3, {token}: available\n"),
        ),
        (
            1,
            4,
            format!(
                "swap 4 at pantry 1, voted NO, outcome ABORT\n\
                 input 2, {token}: pledged to swap 3\n"
            ),
        ),
        (
            3,
            6,
            "swap 6 at pantry 3, voted YES, outcome ABORT\nit takes nothing from pantry 3\n".into(),
        ),
        (
            1,
            1,
            "swap 1 at pantry 1, voted YES, outcome COMMIT\nit takes nothing from pantry 1\n"
                .into(),
        ),
    ];
    for (pantry, swap, expected) in cases {
        assert_eq!(ask(&week, pantry, swap), Ok(expected));
    }
}

#[test]
fn refused_questions() {
    let week = stored("findings.txt");
    let none = "there is no pantry 8: pantries are 0 to 7";
    for (pantry, swap, number, sentence) in [
        (2, 2, 18, "pantry 2 knows no swap 2"),
        (1, 7, 18, "pantry 1 knows no swap 7"),
        (7, u32::MAX, 18, "pantry 7 knows no swap 4294967295"),
        (0, 0, 3, "there is no swap 0: swap numbers are not 0"),
        (8, 2, 3, none),
        (8, 0, 3, none),
        (256, 2, 3, "there is no pantry 256: pantries are 0 to 7"),
    ] {
        let refused = ask(&week, pantry, swap).expect_err("it is refused");
        assert_eq!(refused.refusal.number(), number);
        assert_eq!(refused.to_string(), sentence);
    }
}

#[test]
fn one_portion() {
    let week = week(
        "opening pantry 5 position 7 household 9 portions 1\n\
         swap 3\n  take pantry 5 opening 7 household 9 portions 1\n  \
         give pantry 5 household 8 portions 1\nregister 3 at 5\n",
    );
    let expected = "swap 3 at pantry 5, voted YES, outcome COMMIT\n\
        input 1, token (pantry 5, making swap 0, position 7), household 9, 1 portion: available\n";
    assert_eq!(ask(&week, 5, 3), Ok(expected.into()));
}

/// After a kind that is none, and after a cut record, nothing more is read, as in
/// the listing; a record that is refused with 3 is passed over.
#[test]
fn where_reading_ends() {
    let opening = [3, 0, 0, 0, 0, 0, 10, 0, 0, 0, 3];
    let high = [3, 8, 0, 0, 0, 0, 10, 0, 0, 0, 3];
    let total = |parts: &[&[u8]]| Week::of_records(&parts.concat()).cluster.total();
    assert_eq!(total(&[]), 0);
    assert_eq!(total(&[&high, &opening]), 3);
    assert_eq!(total(&[&opening, &[9]]), 3);
    assert_eq!(total(&[&[9], &opening]), 0);
    assert_eq!(total(&[&opening[..5]]), 0);
}

/// Two swaps behind swap 1, which pantry 1 has not decided.
const HELD_OFF: &str = "\
opening pantry 0 position 0 household 10 portions 3

swap 1
  take pantry 0 opening 0 household 10 portions 3
  give pantry 1 household 20 portions 3
swap 2
  take pantry 1 swap 1 position 0 household 20 portions 3
  give pantry 3 household 40 portions 3

register 1 at 1
register 2 at 1
register 2 at 3
vote yes on 2 from 3 to 1
";

/// Records about the swap that were refused at that pantry, by their lines, or by
/// their steps where the week comes as records.
#[test]
fn refused_records() {
    let off = "refused, 17: takes what an undecided swap is to make here";
    let by_lines = week(HELD_OFF);
    let expected = format!(
        "pantry 1 knows no swap 2\n\
         line 11, register 2 at 1: {off}\n\
         line 13, vote yes on 2 from 3 to 1: {off}"
    );
    assert_eq!(refused(&by_lines, 1, 2), expected);
    let records = weektext::records(HELD_OFF.as_bytes()).expect("the week has no error");
    let expected = expected
        .replace("line 11", "step 3")
        .replace("line 13", "step 5");
    assert_eq!(refused(&Week::of_records(&records), 1, 2), expected);
    // No record about it was refused at these.
    assert_eq!(refused(&by_lines, 0, 2), "pantry 0 knows no swap 2");
    assert_eq!(refused(&by_lines, 1, 3), "pantry 1 knows no swap 3");
    // Where it is known in the end, what was refused before is no part of it.
    let later = week(
        &(HELD_OFF.to_owned()
            + "register 1 at 0\nvote yes on 1 from 0 to 1\nregister 2 at 1\nregister 2 at 1\n"),
    );
    assert_eq!(
        ask(&later, 1, 2),
        Ok("swap 2 at pantry 1, voted YES, outcome WAIT\n\
            input 1, token (pantry 1, making swap 1, position 0), household 20, 3 portions: \
            available\n"
            .into())
    );
}

/// Records of that number that were refused before they reached a pantry, whichever
/// they were for.
#[test]
fn records_refused_before_a_pantry() {
    let week = week(
        "swap 8\n  take pantry 0 opening 0 household 1 portions 2\n  \
         give pantry 1 household 1 portions 3\n\
         swap 8 as b\n  take pantry 0 opening 0 household 1 portions 2\n  \
         take pantry 0 opening 0 household 1 portions 2\n  \
         give pantry 1 household 1 portions 4\n\
         swap 8 as c\n  take pantry 0 opening 0 household 1 portions 2\n  \
         give pantry 2 household 1 portions 2\n\
         register 8 at 0\nregister b at 1\nregister 8 at 9\nregister c at 1\n\
         vote 3 on c from 0 to 1\nregister c at 3\nvote no on 8 from 0 to 1\n",
    );
    let range = "a field or count outside its range, a pantry above 7, or an unused slot not zero";
    let reached_none = format!(
        "line 11, register 8 at 0: refused, 5: the portions taken and given have different sums\n\
         line 17, vote no on 8 from 0 to 1: refused, 5: the portions taken and given have \
         different sums\n\
         line 12, register 8-2 at 1: refused, 4: one token named twice\n\
         line 13, register 8 at 9: refused, 3: {range}\n\
         line 15, vote 3 on 8-3 from 0 to 1: refused, 3: {range}"
    );
    let no_pantry = "receiver or sender not among the swap's pantries";
    for (pantry, line) in [
        (1, Some("line 14, register 8-3 at 1")),
        (3, Some("line 16, register 8-3 at 3")),
        (5, None),
    ] {
        let here = line.map_or(String::new(), |line| {
            format!("\n{line}: refused, 6: {no_pantry}")
        });
        let expected = format!("pantry {pantry} knows no swap 8\n{reached_none}{here}");
        assert_eq!(refused(&week, pantry, 8), expected);
    }
}

/// Three of each cause are shown.
#[test]
fn many_refused_records() {
    let off = "refused, 17: takes what an undecided swap is to make here";
    for (more, last) in [
        (1, "".into()),
        (2, "\nand 1 more: refused, 17".to_owned()),
        (40, "\nand 39 more: refused, 17".into()),
    ] {
        let week = week(&(HELD_OFF.to_owned() + &"register 2 at 1\n".repeat(more)));
        let expected = format!(
            "pantry 1 knows no swap 2\n\
             line 11, register 2 at 1: {off}\n\
             line 13, vote yes on 2 from 3 to 1: {off}\n\
             line 14, register 2 at 1: {off}{last}"
        );
        assert_eq!(refused(&week, 1, 2), expected);
    }
}

/// Of two swaps with one number the one that is known there counts.
#[test]
fn two_swaps_of_one_number() {
    let text = "opening pantry 0 position 0 household 1 portions 2\n\
         swap 8\n  take pantry 0 opening 0 household 1 portions 2\n  \
         give pantry 1 household 1 portions 2\n\
         swap 8 as b\n  take pantry 0 opening 0 household 1 portions 2\n  \
         give pantry 2 household 1 portions 2\n\
         register b at 0\nregister 8 at 0\n";
    let known = "swap 8 at pantry 0, voted YES, outcome WAIT\n\
        input 1, token (pantry 0, making swap 0, position 0), household 1, 2 portions: available\n";
    assert_eq!(ask(&week(text), 0, 8), Ok(known.into()));
    let elsewhere = week(&(text.to_owned() + "vote yes on 8 from 0 to 1\n"));
    // The record met first has the number alone for its label.
    assert_eq!(
        refused(&elsewhere, 1, 8),
        "pantry 1 knows no swap 8\n\
         line 10, vote yes on 8-2 from 0 to 1: refused, 16: sender has not given this vote on this \
         swap"
    );
    assert_eq!(refused(&elsewhere, 2, 8), "pantry 2 knows no swap 8");
}

/// Every stored week, every pantry, every number: the reference's findings, one
/// line for each.
#[test]
fn every_week() {
    let mut lines = 0;
    for stored in weeks() {
        let week = Week::of_records(&stored.bytes);
        let mut expected = reference::Cluster::new(LIMITS);
        let mut rest = &stored.bytes[..];
        while !rest.is_empty() {
            let reading = reference::read(rest);
            if let Ok(record) = reading.outcome {
                let _ = expected.play(&record);
            }
            rest = &rest[reading.taken..];
        }
        for shard in expected.shards() {
            for known in shard.known() {
                let number = known.transaction.number;
                let text = ask(&week, shard.number().into(), number).expect("it is known");
                let found = known.findings.iter().flatten().map(ending);
                let found: Vec<String> = found.collect();
                let told: Vec<&str> = text.lines().skip(1).collect();
                let case = format!("{}, {number} at {}", stored.name, shard.number());
                if found.is_empty() {
                    let nothing = format!("it takes nothing from pantry {}", shard.number());
                    assert_eq!(told, [nothing], "{case}");
                    continue;
                }
                assert_eq!(told.len(), found.len(), "{case}");
                for (line, found) in told.iter().zip(found) {
                    assert!(line.ends_with(&found), "{case}: {line}, {found}");
                }
                lines += told.len();
            }
        }
    }
    assert!(lines > 200, "{lines} lines");
}

/// How the line for a finding ends.
fn ending(finding: &Finding) -> String {
    match finding {
        Finding::Available => ": available".into(),
        Finding::NotHeld => ": not held".into(),
        Finding::OtherOwner => ": other household".into(),
        Finding::OtherAmount => ": other portions".into(),
        Finding::Pledged(number) => format!(": pledged to swap {number}"),
    }
}

/// Every stored week, every pantry and every number that a record carries: where
/// the pantry does not know it, the records that the listing has as refused there or
/// at no pantry, three for each cause and how many more.
#[test]
fn refused_records_of_every_week() {
    let mut lines = 0;
    for file in week_files("txt") {
        let text = fs::read(&file).expect("the week can be read");
        let week = Week::of_text(&text).expect("the week has no error");
        let listing = fs::read_to_string(file.with_extension("listing")).expect("it is there");
        assert_eq!(week.records.len(), listing.lines().count() - 1);
        let carried = week.records.iter().filter_map(|played| {
            let swap = played.entry.swap.as_ref()?;
            (swap.number != 0).then_some(swap.number)
        });
        let numbers: BTreeSet<u32> = carried.collect();
        for (pantry, &number) in (0..8).flat_map(|pantry| numbers.iter().map(move |n| (pantry, n)))
        {
            if ask(&week, pantry, number).is_ok() {
                continue;
            }
            let expected = listed(&week, &listing, pantry, number);
            let told = refused(&week, pantry, number);
            let mut told = told.lines();
            let sentence = format!("pantry {pantry} knows no swap {number}");
            assert_eq!(told.next(), Some(&*sentence), "{}", file.display());
            let told: BTreeSet<&str> = told.collect();
            let expected: BTreeSet<&str> = expected.iter().map(String::as_str).collect();
            assert_eq!(told, expected, "{}: {sentence}", file.display());
            lines += told.len();
        }
    }
    assert!(lines > 100, "{lines} lines");
}

/// The lines for the records about the swap that the listing has as refused.
fn listed(week: &Week, listing: &str, pantry: u32, number: u32) -> Vec<String> {
    let mut times = BTreeMap::<u8, usize>::new();
    let mut lines = Vec::new();
    for (played, line) in week.records.iter().zip(listing.lines()) {
        let carried = played.entry.swap.as_ref();
        let Some((_, rest)) = line.split_once(' ') else {
            panic!("the line '{line}' has a step");
        };
        let Some((place, refusal)) = rest.split_once(" REFUSED ") else {
            continue;
        };
        let here = place == "-" || place == pantry.to_string();
        if !here || carried.is_none_or(|swap| swap.number != number) {
            continue;
        }
        let refusal: u8 = refusal.parse().expect("a refusal has a number");
        let count = times.entry(refusal).or_default();
        *count += 1;
        if *count <= 3 {
            let cause = cause(Refusal::from_number(refusal).expect("it is one"));
            let (line, text) = (
                played.entry.line.expect("it came as text"),
                &played.entry.text,
            );
            lines.push(format!("line {line}, {text}: refused, {refusal}: {cause}"));
        }
    }
    let more = times.iter().filter(|&(_, &count)| count > 3);
    lines.extend(more.map(|(number, count)| format!("and {} more: refused, {number}", count - 3)));
    lines
}
