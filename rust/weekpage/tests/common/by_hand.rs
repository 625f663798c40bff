//! Weeks by hand.

use program::list;

/// The records of a week's text, and what the listing program prints for them.
pub fn by_hand(text: &str) -> (Vec<u8>, String) {
    let bytes = weektext::records(text.as_bytes());
    let bytes = bytes.unwrap_or_else(|error| panic!("{error}"));
    let listing = String::from_utf8(list(&bytes, 4_096));
    (bytes, listing.expect("a listing is ASCII"))
}
