//! One line's words, taken from the front.

use std::str::SplitWhitespace;

use crate::Error;

/// More of a word than this is not repeated in a message.
const SHOWN: usize = 40;

/// The words of a line that were not taken yet.
pub(crate) struct Words<'a> {
    line: usize,
    rest: SplitWhitespace<'a>,
}

impl<'a> Words<'a> {
    /// The words in front of the comment, if there is one.
    pub(crate) fn new(line: usize, text: &'a str) -> Self {
        let (words, _) = text.split_once('#').unwrap_or((text, ""));
        Words {
            line,
            rest: words.split_whitespace(),
        }
    }

    /// The line's number.
    pub(crate) fn line(&self) -> usize {
        self.line
    }

    /// The next word, if there is one.
    pub(crate) fn next(&mut self) -> Option<&'a str> {
        self.rest.next()
    }

    /// The error that something else than this word was expected.
    pub(crate) fn error(
        &self,
        field: &'static str,
        expected: impl Into<String>,
        found: Option<&str>,
    ) -> Error {
        let found = match found {
            Some(word) => {
                let shown: String = word.chars().take(SHOWN).collect();
                let cut = if shown.len() < word.len() { "..." } else { "" };
                format!("'{}{cut}'", shown.escape_debug())
            }
            None => "the end of the line".into(),
        };
        Error::new(self.line, field, expected, found)
    }

    /// This very word.
    pub(crate) fn literal(&mut self, field: &'static str, word: &'static str) -> Result<(), Error> {
        let found = self.next();
        if found == Some(word) {
            return Ok(());
        }
        Err(self.error(field, format!("the word '{word}'"), found))
    }

    /// A number of one byte.
    pub(crate) fn byte(&mut self, field: &'static str) -> Result<u8, Error> {
        let number = self.number(field, u8::MAX.into())?;
        Ok(u8::try_from(number).expect("the number is at most 255"))
    }

    /// A number of four bytes.
    pub(crate) fn word(&mut self, field: &'static str) -> Result<u32, Error> {
        self.number(field, u32::MAX)
    }

    /// A field's name and then its number of one byte.
    pub(crate) fn named_byte(&mut self, field: &'static str) -> Result<u8, Error> {
        self.literal(field, field)?;
        self.byte(field)
    }

    /// A field's name and then its number of four bytes.
    pub(crate) fn named_word(&mut self, field: &'static str) -> Result<u32, Error> {
        self.literal(field, field)?;
        self.word(field)
    }

    /// Nothing more.
    pub(crate) fn end(&mut self) -> Result<(), Error> {
        match self.next() {
            None => Ok(()),
            found => Err(self.error("end of the line", "nothing more", found)),
        }
    }

    fn number(&mut self, field: &'static str, most: u32) -> Result<u32, Error> {
        let found = self.next();
        found
            .and_then(decimal)
            .filter(|&number| number <= most)
            .ok_or_else(|| self.error(field, format!("a number from 0 to {most}"), found))
    }
}

/// The number that the word's digits write; `str::parse` alone would take a
/// sign, too.
pub(crate) fn decimal(word: &str) -> Option<u32> {
    let digits = word.bytes().all(|byte| byte.is_ascii_digit());
    word.parse().ok().filter(|_| digits)
}
