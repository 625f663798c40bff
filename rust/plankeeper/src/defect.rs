//! The one reason for this crate to panic.

use std::fmt::Display;

/// The library answered what no contract of it allows: a library of another
/// version is linked, or a declaration here is wrong.
#[cold]
pub(crate) fn nameless(asked: &str, answer: impl Display) -> ! {
    panic!("defect: the library answered {answer} to {asked}, which stands for nothing")
}

/// A field of the library's answer that is a byte.
pub(crate) fn byte(word: u32) -> u8 {
    u8::try_from(word).unwrap_or_else(|_| nameless("a question for a byte", word))
}
