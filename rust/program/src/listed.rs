//! What a listing shows, for counts.

use weeks::Tally;

/// Counts a listing's words, pantries and end.
pub fn count_listing(tally: &mut Tally, text: &[u8]) {
    let text = str::from_utf8(text).expect("a listing is ASCII");
    let mut last = "no records";
    for line in text.lines() {
        if let Some(total) = line.strip_prefix("TOTAL ") {
            let none = total == "0";
            tally.add(if none { "TOTAL 0" } else { "TOTAL more" });
            continue;
        }
        let (_, rest) = line.split_once(' ').expect("a line has a step");
        let (pantry, words) = rest.split_once(' ').expect("a line has a pantry");
        tally.add(&format!("pantry {pantry}"));
        tally.add(words);
        last = match words {
            "REFUSED 1" | "REFUSED 2" => words,
            _ => "a whole record",
        };
    }
    tally.add(&format!("ends with {last}"));
}

/// What [`count_listing`] counts beside the answers' words.
pub fn listing_labels() -> Vec<String> {
    let pantries = (0..8).map(|pantry| format!("pantry {pantry}"));
    let others = [
        "pantry -",
        "TOTAL 0",
        "TOTAL more",
        "ends with no records",
        "ends with a whole record",
        "ends with REFUSED 1",
        "ends with REFUSED 2",
    ];
    pantries.chain(others.map(String::from)).collect()
}
