//! Why a swap did not commit, by the reference: the reason beside its entry has
//! to say that.

use ask::cause;
use reference::{Finding, Input, Refusal};
use weeks::Tally;

use crate::common::tree::Element;
use crate::ended::{Ended, Told};
use crate::entries::{paragraphs, steps};

/// The words for findings, of which an input that spoils a swap has one.
const SPOILT: [&str; 4] = [
    "not held",
    "other household",
    "other portions",
    "pledged to swap ",
];

/// Checks the reason beside the entry of a swap that did not commit, and counts
/// how the swap has ended and what was found. The name is for messages.
pub fn check_reason(row: &Element, ended: &Ended, told: &Told, name: &str, tally: &mut Tally) {
    let why = row.one("td.why");
    let name = format!("{name}: '{}'", why.text());
    let end = ended.end(told);
    match end {
        "aborted" => check_noes(why, ended, told, &name, tally),
        "undecided" => check_missing(why, ended, told, &name),
        "known nowhere" => check_refusals(why, ended, told, &name),
        _ => panic!("{name}, but it is {end}"),
    }
    tally.add(end);
}

/// A paragraph for each pantry that said no, with every input there that was not
/// available and what was found of it.
fn check_noes(why: &Element, ended: &Ended, told: &Told, name: &str, tally: &mut Tally) {
    let (paragraphs, noes) = (paragraphs(why), ended.noes(told));
    assert_eq!(paragraphs.len(), noes.len(), "{name}");
    for (paragraph, (shard, findings)) in paragraphs.iter().zip(noes) {
        assert!(paragraph.contains(&format!("Pantry {shard} ")), "{name}");
        let inputs = told.transaction.used_inputs().iter();
        let here = inputs.filter(|input| input.token.shard == shard);
        let found = here.zip(findings);
        let spoilt: Vec<_> = found
            .filter(|(_, finding)| *finding != Finding::Available)
            .collect();
        // Nothing else than a token's name has brackets.
        let parts: Vec<&str> = paragraph.split('(').skip(1).collect();
        assert_eq!(parts.len(), spoilt.len(), "{name}");
        for (part, (input, finding)) in parts.into_iter().zip(spoilt) {
            let pledged = |number| ended.numbered(shard, number).name.clone();
            check_spoilt(&format!("({part}"), input, words(finding, pledged).1, name);
            tally.add(words(finding, pledged).0);
        }
    }
}

/// The part of a reason that tells of one input.
fn check_spoilt(part: &str, input: &Input, words: String, name: &str) {
    let token = token_name(input);
    assert!(part.starts_with(&token), "{name}: {token} in '{part}'");
    let told = SPOILT.iter().filter(|words| part.contains(**words));
    assert_eq!(told.count(), 1, "{name}: '{part}'");
    let (_, behind) = part.split_once(&words).unwrap_or(("", "0"));
    // Swap 1 is not swap 12, nor swap 1-2.
    let whole = !behind.starts_with(|sign: char| sign.is_ascii_digit() || sign == '-');
    assert!(whole, "{name}: {words} in '{part}'");
}

/// What a finding is counted as, and document 02's words for it; `pledged` gives the
/// name of the swap of a number.
fn words(finding: Finding, pledged: impl Fn(u32) -> String) -> (&'static str, String) {
    match finding {
        Finding::Available => ("available", "available".into()),
        Finding::NotHeld => ("not held", "not held".into()),
        Finding::OtherOwner => ("other household", "other household".into()),
        Finding::OtherAmount => ("other portions", "other portions".into()),
        Finding::Pledged(number) => ("pledged", format!("pledged to {}", pledged(number))),
    }
}

/// A token's name as document 01 writes it.
pub fn token_name(input: &Input) -> String {
    let token = input.token;
    format!("({}, {}, {})", token.shard, token.creator, token.index)
}

/// A paragraph for each of the swap's pantries: that it does not know it and what
/// was refused there, or the votes that it has not heard; and one for what reached
/// no pantry.
fn check_missing(why: &Element, ended: &Ended, told: &Told, name: &str) {
    let paragraphs = paragraphs(why);
    for shard in told.shards() {
        let front = format!("Pantry {shard} ");
        let mut own = paragraphs.iter().filter(|text| text.starts_with(&front));
        let (Some(paragraph), None) = (own.next(), own.next()) else {
            panic!("{name}: no paragraph, or two, of pantry {shard}");
        };
        let Some(known) = ended.known(shard, told) else {
            let refused = refusals(ended, told, |at| at == Some(shard));
            let expected = format!("{front}does not know it.{refused}");
            assert_eq!(*paragraph, expected, "{name}");
            continue;
        };
        let mut missing = told.shards();
        missing.retain(|&sender| known.heard[usize::from(sender)].is_none());
        let missing: Vec<u64> = missing.into_iter().map(u64::from).collect();
        assert_eq!(numbers(paragraph)[1..], missing, "{name}");
        assert!(paragraph.contains("has not heard"), "{name}");
    }
    let unread = refusals(ended, told, |at| at.is_none());
    let expected = (!unread.is_empty()).then(|| format!("{NO_PANTRY}{unread}"));
    let others = &paragraphs[1 + told.shards().len()..];
    assert_eq!(others, Vec::from_iter(expected), "{name}");
}

/// What is said in front of those that could not be read.
const NO_PANTRY: &str = "Not every record reached a pantry.";

/// That nobody knows it, and every cause.
fn check_refusals(why: &Element, ended: &Ended, told: &Told, name: &str) {
    let expected = format!("No pantry knows it.{}", refusals(ended, told, |_| true));
    assert_eq!(paragraphs(why), [expected], "{name}");
    let firsts = causes(told, |_| true).into_iter();
    let firsts: Vec<usize> = firsts.map(|(_, step, _)| step).collect();
    assert_eq!(steps(why), firsts, "{name}");
}

/// The causes for which records about the swap were refused at these pantries, in
/// the order in which they first came: each with its first step, and how often
/// it came again.
fn causes(told: &Told, fits: impl Fn(Option<u8>) -> bool) -> Vec<(Refusal, usize, usize)> {
    let mut causes: Vec<(Refusal, usize, usize)> = Vec::new();
    let refused = told.refused.iter().filter(|(_, shard, _)| fits(*shard));
    for &(step, _, refusal) in refused {
        match causes.iter_mut().find(|(other, ..)| *other == refusal) {
            Some((_, _, again)) => *again += 1,
            None => causes.push((refusal, step, 0)),
        }
    }
    causes
}

/// What is said of them.
fn refusals(ended: &Ended, told: &Told, fits: impl Fn(Option<u8>) -> bool) -> String {
    let said = causes(told, fits)
        .into_iter()
        .map(|(refusal, step, again)| {
            let line = ended.lines[step - 1].map(|line| format!(" (line {line})"));
            let (line, number) = (line.unwrap_or_default(), refusal.number());
            let again = match again {
                0 => String::new(),
                1 => " and once more".into(),
                more => format!(" and {more} times more"),
            };
            let cause = sentence(number);
            format!(" Refused at step {step}{line}{again}, {number}: {cause}.")
        });
    said.collect()
}

/// The stewards' sentence for the cause of this number.
fn sentence(number: u8) -> &'static str {
    let refusal = plankeeper::Refusal::from_number(number);
    cause(refusal.expect("there is such a cause"))
}

/// All numbers in a text.
pub fn numbers(text: &str) -> Vec<u64> {
    let parts = text.split(|sign: char| !sign.is_ascii_digit());
    let numbers = parts.filter(|part| !part.is_empty());
    let numbers = numbers.map(|part| part.parse().expect("digits are a number"));
    numbers.collect()
}
