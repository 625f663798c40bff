//! What the tests of pages share: a strict reader of them, and weeks to draw.

pub mod cases;
mod names;
pub mod parser;
pub mod tree;
