//! Pages of weeks by hand.

use crate::by_hand::by_hand;
use crate::common::cases::{Case, tree};
use crate::common::tree::Element;

/// The page of the week with this text.
pub fn drawn(text: &str) -> Element {
    let (bytes, listing) = by_hand(text);
    let case = Case {
        name: "by hand".into(),
        bytes,
        listing,
        text: Some(text.into()),
    };
    tree(&case.name, &case.page())
}
