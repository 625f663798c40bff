use std::fmt;

/// Why a text is no week: the line, the field, what was expected there and what
/// stands there instead.
#[derive(Clone, Debug, PartialEq, Eq)]
pub struct Error {
    line: usize,
    field: &'static str,
    expected: String,
    found: String,
}

impl Error {
    pub(crate) fn new(
        line: usize,
        field: &'static str,
        expected: impl Into<String>,
        found: impl Into<String>,
    ) -> Self {
        Error {
            line,
            field,
            expected: expected.into(),
            found: found.into(),
        }
    }

    /// The line's number, from 1.
    pub fn line(&self) -> usize {
        self.line
    }
}

impl fmt::Display for Error {
    fn fmt(&self, out: &mut fmt::Formatter<'_>) -> fmt::Result {
        write!(
            out,
            "line {}: {}: expected {}, found {}",
            self.line, self.field, self.expected, self.found
        )
    }
}

impl std::error::Error for Error {}
