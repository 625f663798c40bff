//! The page: it draws what was read, and asks nothing of it but where it goes.
//!
//! `page` puts the parts together. `marks` has a function for each
//! mark, `row` the marks of one record; `records`, `endings` and `pantries` are
//! the page's tables, `runs` what of the records can be folded.

mod endings;
mod lanes;
mod legend;
mod marks;
mod markup;
mod overview;
mod page;
mod pantries;
mod picture;
mod reasons;
mod records;
mod row;
mod runs;
mod sentences;
mod tables;

pub use page::page;
pub use picture::picture;
