//! What the repository says of itself: its pages, the names on them, and what
//! can be counted. The tests beside this hold the pages to the sources, and the
//! scripts for people to what they say while they build.

#![forbid(unsafe_code)]
#![warn(missing_docs)]

mod files;
mod page;
mod scratch;
mod words;

pub use files::{files, lines_of, rust_version, with_ending};
pub use page::{Page, Span, pages};
pub use scratch::{Scratch, alone, put_script};
pub use words::Words;
