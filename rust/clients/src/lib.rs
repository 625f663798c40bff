//! The header `include/plankeeper.h` and the example programs, held against the
//! static library: what a header declares, what the library exports, and the
//! compilers that build programs with both.

#![forbid(unsafe_code)]
#![warn(missing_docs)]

mod boundary;
mod expected;
mod header;
mod prototype;
mod tools;

pub use boundary::{Export, declared, exported};
pub use expected::planner_text;
pub use header::{Cause, Header};
pub use prototype::{Parameter, Prototype};
pub use tools::{Language, compile, library, link, run, rust_example, scratch, symbols, well};
