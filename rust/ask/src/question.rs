//! The questions that can be asked, and the words for each.

use std::ffi::OsString;

use crate::Week;
use crate::why::Why;

/// A line for each question: its words, where capitals stand for what it is about,
/// and what is answered. `../ask` shows the same lines.
pub const QUESTIONS: &[(&str, &str)] = &[(
    "why PANTRY SWAP",
    "which token spoiled the swap there, or why it is not known there",
)];

/// A question.
#[derive(Clone, Copy, Debug, PartialEq, Eq)]
pub enum Question {
    /// Which token spoiled a swap.
    Why(Why),
}

impl Question {
    /// The question that these words ask; nothing where they are none's.
    pub fn parse(words: &[OsString]) -> Option<Self> {
        let words: Option<Vec<&str>> = words.iter().map(|word| word.to_str()).collect();
        match words?[..] {
            ["why", pantry, swap] => Some(Question::Why(Why {
                pantry: number(pantry)?,
                swap: number(swap)?,
            })),
            _ => None,
        }
    }

    /// The answer, as text; or the sentence that says why there is none.
    pub fn answer(self, week: &Week) -> Result<String, String> {
        match self {
            Question::Why(why) => why.answer(week).map_err(|refused| refused.to_string()),
        }
    }
}

/// The number that the word's digits write; `str::parse` alone would take a sign,
/// too.
fn number(word: &str) -> Option<u32> {
    let digits = word.bytes().all(|byte| byte.is_ascii_digit());
    word.parse().ok().filter(|_| digits)
}
