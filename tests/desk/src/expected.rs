//! What the page has expected, in its words.

use crate::fault::{self, Fault};

/// The rows of the table in "What is wrong with a line".
#[derive(Clone, Copy, Debug, PartialEq, Eq, PartialOrd, Ord)]
pub enum Expected {
    Command,
    Identifier,
    Interchange,
    Function,
    Block,
    Data,
    Raw,
    ShorterData,
    ClosingQuote,
    SpaceAfterQuote,
    NothingMore,
}

use Expected::*;

pub const ALL: [Expected; 11] = [
    Command,
    Identifier,
    Interchange,
    Function,
    Block,
    Data,
    Raw,
    ShorterData,
    ClosingQuote,
    SpaceAfterQuote,
    NothingMore,
];

impl Expected {
    pub fn words(self) -> &'static str {
        match self {
            Command => "a command, or help",
            Identifier => "an identifier: a decimal number up to 4294967295",
            Interchange => "an interchange: a decimal number up to 255",
            Function => "a function: t, r or s",
            Block => "a block: 16 hex digits, or $n of an answer of 8 bytes",
            Data => "data: hex digits in pairs, \"text\", or $n of an answer with bytes",
            Raw => "raw bytes: hex digits in pairs",
            ShorterData => "data of at most 65500 bytes",
            ClosingQuote => "a closing quote",
            SpaceAfterQuote => "a space after the quote",
            NothingMore => "nothing more",
        }
    }
}

/// Why a column is the one that it is; the lines of a test have to reach each.
#[derive(Clone, Copy, Debug, PartialEq, Eq, PartialOrd, Ord)]
pub enum Why {
    NoName,
    Missing,
    WrongKind,
    NoDigit,
    TooLarge,
    NoFunction,
    NoHexDigit,
    Seventeenth,
    DigitsLacking,
    NoNumber,
    NoDigitAfterDollar,
    DollarTooLarge,
    NeverGiven,
    NoBytes,
    NotEightBytes,
    TooLong,
    Unclosed,
    NoSpace,
    TooMany,
    LongLine,
}

/// The column at which a line stops being one, counted from 1, and what was expected there.
#[derive(Clone, Copy, Debug, PartialEq)]
pub struct Wrong {
    pub column: usize,
    pub expected: Expected,
    pub why: Why,
}

impl Wrong {
    /// At the letter with this index, which counts from 0.
    pub fn at(index: usize, expected: Expected, why: Why) -> Wrong {
        let off = usize::from(fault::on(Fault::ColumnOffByOne));
        Wrong { column: index + 1 + off, expected, why }
    }

    /// The desk's answer to line `line`.
    pub fn answer(&self, line: u64) -> String {
        format!("line {line}, column {}: expected {}\n", self.column, self.expected.words())
    }
}
