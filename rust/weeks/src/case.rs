//! What is being tried, for messages.

use std::fmt::Debug;
use std::thread;

use crate::SEED;

/// The call being tried. Printed if the test panics, wherever that is, so that
/// no assertion has to carry it.
pub struct Case<'a> {
    /// The week's number, or the order's.
    pub week: u64,
    /// The call's number in it.
    pub call: u64,
    /// What was handed over.
    pub handed: &'a dyn Debug,
}

impl Drop for Case<'_> {
    fn drop(&mut self) {
        if thread::panicking() {
            let Case { week, call, handed } = self;
            eprintln!("seed {SEED:#x}, week {week}, call {call}: {handed:?}");
        }
    }
}
