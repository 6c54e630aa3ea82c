//! The words of a line, and where each of them stands.

use crate::expected::{Expected, Why, Wrong};
use crate::fault::{self, Fault};

/// A word: the index of its first letter in the line, and its letters; those of a text without its quotes.
#[derive(Clone, Copy, Debug)]
pub struct Word<'a> {
    pub start: usize,
    pub letters: &'a [u8],
    pub is_text: bool,
}

impl Word<'_> {
    /// The index one past the end of a plain word.
    pub fn end(&self) -> usize {
        self.start + self.letters.len()
    }
}

pub struct Words<'a> {
    line: &'a [u8],
    at: usize,
    last_end: usize,
}

fn is_blank(letter: u8) -> bool {
    match letter {
        b' ' => true,
        b'\t' => !fault::on(Fault::TabIsNoBlank),
        b'\r' => !fault::on(Fault::ReturnIsNoBlank),
        _ => false,
    }
}

fn ends_word(letter: u8) -> bool {
    is_blank(letter) || letter == b'#' && !fault::on(Fault::HashInsideWord)
}

impl<'a> Words<'a> {
    pub fn of(line: &'a [u8]) -> Words<'a> {
        Words { line, at: 0, last_end: 0 }
    }

    /// Where a missing word would start: the line's end, or the comment's `#`.
    pub fn missing_at(&self) -> usize {
        if fault::on(Fault::MissingAtLastWord) {
            return self.last_end;
        }
        self.at
    }

    fn rest(&self) -> &'a [u8] {
        &self.line[self.at..]
    }

    /// The next word; None at the line's end and at a comment.
    pub fn next(&mut self) -> Result<Option<Word<'a>>, Wrong> {
        let blanks = self.rest().iter().take_while(|&&letter| is_blank(letter)).count();
        self.at += blanks;
        let word = match self.rest().first() {
            None | Some(b'#') => return Ok(None),
            Some(b'"') => self.text()?,
            Some(_) => self.plain(),
        };
        self.last_end = self.at;
        Ok(Some(word))
    }

    fn plain(&mut self) -> Word<'a> {
        let rest = self.rest();
        let length = rest.iter().position(|&letter| ends_word(letter)).unwrap_or(rest.len());
        let word = Word { start: self.at, letters: &rest[..length], is_text: false };
        self.at += length;
        word
    }

    fn text(&mut self) -> Result<Word<'a>, Wrong> {
        let start = self.at;
        let inside = &self.line[start + 1..];
        let Some(length) = inside.iter().position(|&letter| letter == b'"') else {
            return Err(Wrong::at(self.line.len(), Expected::ClosingQuote, Why::Unclosed));
        };
        self.at = start + 1 + length + 1;
        let follows = self.rest().first();
        if follows.is_some_and(|&letter| !is_blank(letter) && letter != b'#') {
            return Err(Wrong::at(self.at, Expected::SpaceAfterQuote, Why::NoSpace));
        }
        let mut letters = &inside[..length];
        if fault::on(Fault::TextCutAtHash) {
            letters = letters.split(|&letter| letter == b'#').next().unwrap_or_default();
        }
        if fault::on(Fault::TextTrimmed) {
            letters = letters.trim_ascii();
        }
        Ok(Word { start, letters, is_text: true })
    }
}
