//! Pages of stored weeks.

use crate::common::cases::{cases, tree};
use crate::common::tree::Element;

/// The page of the stored week of this name.
pub fn stored(name: &str) -> Element {
    let mut cases = cases();
    let case = cases.find(|case| case.name == name);
    let case = case.expect("there is such a week");
    tree(name, &case.page())
}
