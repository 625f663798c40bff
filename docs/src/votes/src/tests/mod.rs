//! The buffer, the baseline beside the proved reader, and what fails.

mod baseline;
mod buffer;
mod program;
