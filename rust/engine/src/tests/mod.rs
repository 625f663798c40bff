//! What the adapter itself says, by hand.

mod conversions;
mod states;
mod widths;
