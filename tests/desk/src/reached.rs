//! What the lines of a test have reached, and what they have not.

use crate::batch::{Batch, Line};
use crate::desk::Outcome;
use crate::expected::{Expected, Why, Wrong};
use crate::says::{name_of, LONGEST_LINE};
use model::notary::Reply;
use model::pairs::Pairs;
use model::refusals::CUT;
use model::rules::RULES;
use std::collections::BTreeMap;

/// Every reason with which each message can be given.
const TOGETHER: [(Expected, &[Why]); 11] = [
    (Expected::Command, &[Why::NoName]),
    (Expected::Identifier, &[Why::Missing, Why::WrongKind, Why::NoDigit, Why::TooLarge]),
    (Expected::Interchange, &[Why::Missing, Why::WrongKind, Why::NoDigit, Why::TooLarge]),
    (Expected::Function, &[Why::Missing, Why::WrongKind, Why::NoFunction]),
    (
        Expected::Block,
        &[
            Why::Missing,
            Why::WrongKind,
            Why::NoHexDigit,
            Why::Seventeenth,
            Why::DigitsLacking,
            Why::NoNumber,
            Why::NoDigitAfterDollar,
            Why::DollarTooLarge,
            Why::NeverGiven,
            Why::NoBytes,
            Why::NotEightBytes,
        ],
    ),
    (
        Expected::Data,
        &[
            Why::Missing,
            Why::NoHexDigit,
            Why::DigitsLacking,
            Why::NoNumber,
            Why::NoDigitAfterDollar,
            Why::DollarTooLarge,
            Why::NeverGiven,
            Why::NoBytes,
        ],
    ),
    (Expected::Raw, &[Why::Missing, Why::WrongKind, Why::NoHexDigit, Why::DigitsLacking]),
    (Expected::ShorterData, &[Why::TooLong]),
    (Expected::ClosingQuote, &[Why::Unclosed]),
    (Expected::SpaceAfterQuote, &[Why::NoSpace]),
    (Expected::NothingMore, &[Why::TooMany, Why::LongLine]),
];

#[derive(Default)]
pub struct Reached {
    pub lines: usize,
    pub noise: usize,
    pub bad: usize,
    wrongs: BTreeMap<(Expected, Why), usize>,
    pairs: Pairs,
    replies: BTreeMap<(u8, u8), usize>,
    sorts: BTreeMap<&'static str, usize>,
    letters: Vec<bool>,
}

impl Reached {
    pub fn new() -> Reached {
        Reached { letters: vec![false; 256], ..Reached::default() }
    }

    pub fn meet(&mut self, batch: &Batch) {
        for line in &batch.lines {
            self.meet_line(line);
        }
        self.lines += batch.lines.len();
        self.noise += batch.noise;
        if !batch.last_has_feed {
            *self.sorts.entry("last line without line feed").or_default() += 1;
        }
    }

    fn meet_line(&mut self, line: &Line) {
        match &line.outcome {
            Outcome::Bad(wrong) => {
                self.bad += 1;
                *self.wrongs.entry((wrong.expected, wrong.why)).or_default() += 1;
            }
            Outcome::Answered(replies) => {
                for (tag, reply) in replies {
                    self.pairs.meet(*tag, reply);
                    *self.replies.entry((*tag, reply.number())).or_default() += 1;
                }
            }
            _ => {}
        }
        line.letters.iter().for_each(|&letter| self.letters[usize::from(letter)] = true);
        for (sort, is_so) in sorts(line) {
            *self.sorts.entry(sort).or_default() += usize::from(is_so);
        }
    }

    /// Prints what was reached; true where nothing is lacking.
    pub fn print(&self) -> bool {
        let letters = self.letters.iter().filter(|&&met| met).count();
        println!("letters: {letters} of 255");
        let whole = [self.print_wrongs(), self.print_sorts(), self.print_replies(), letters == 255];
        let whole = whole.iter().all(|&part| part);
        if !whole {
            println!("not everything was reached");
        }
        whole
    }

    fn print_wrongs(&self) -> bool {
        let times = |expected: Expected, why: Why| self.wrongs.get(&(expected, why)).copied().unwrap_or(0);
        for (expected, whys) in TOGETHER {
            let cells: Vec<String> =
                whys.iter().map(|&why| format!("{why:?}:{}", times(expected, why))).collect();
            println!("expected {}\n    {}", expected.words(), cells.join(" "));
        }
        TOGETHER.iter().all(|(expected, whys)| whys.iter().all(|&why| times(*expected, why) > 0))
    }

    fn print_sorts(&self) -> bool {
        println!("lines with");
        for (sort, times) in &self.sorts {
            println!("    {sort}: {times}");
        }
        self.sorts.values().all(|&times| times > 0)
    }

    fn print_replies(&self) -> bool {
        println!("command, and reply:times");
        for rule in &RULES {
            let of_rule = self.replies.range((rule.tag, 0)..=(rule.tag, 255));
            let cells: Vec<String> = of_rule.map(|((_, reply), times)| format!("{reply}:{times}")).collect();
            println!("    {:6} {}", name_of(rule), cells.join(" "));
        }
        let (met, reachable) = self.pairs.counts();
        println!(
            "pairs of tag and reply: {met} of {reachable} that a stream can reach, unknown tags among them"
        );
        met == reachable
    }
}

/// The sorts of line that have to be among those of a test.
fn sorts(line: &Line) -> Vec<(&'static str, bool)> {
    let mut sorts = vec![
        ("no word", line.outcome == Outcome::Empty && !line.letters.is_empty()),
        ("no letter", line.letters.is_empty()),
        ("who", line.outcome == Outcome::Who),
        ("help", line.outcome == Outcome::Help),
        ("quit", line.outcome == Outcome::Quit),
        ("131072 letters", line.letters.len() == LONGEST_LINE),
        ("131073 letters", line.letters.len() == LONGEST_LINE + 1),
    ];
    sorts.extend(match &line.outcome {
        Outcome::Bad(wrong) => sorts_of_bad(line, wrong),
        Outcome::Answered(replies) if first_word(&line.letters) == b"!" => sorts_of_raw(replies),
        Outcome::Answered(_) => sorts_of_command(line),
        _ => Vec::new(),
    });
    sorts
}

fn first_word(letters: &[u8]) -> &[u8] {
    let mut words = letters.split(|letter| b" \t\r#".contains(letter));
    words.find(|word| !word.is_empty()).unwrap_or_default()
}

fn sorts_of_bad(line: &Line, wrong: &Wrong) -> Vec<(&'static str, bool)> {
    vec![
        ("a column one past the line", wrong.column == line.letters.len() + 1),
        ("a column at the first letter", wrong.column == 1),
    ]
}

fn sorts_of_raw(replies: &[(u8, Reply)]) -> Vec<(&'static str, bool)> {
    let cut = replies.iter().any(|(_, reply)| reply.number() == CUT);
    vec![
        ("raw bytes of one whole command", replies.len() == 1 && !cut),
        ("raw bytes of several commands", replies.len() > 1 && !cut),
        ("raw bytes that are cut", replies.len() == 1 && cut),
        ("raw bytes cut after a whole command", replies.len() > 1 && cut),
    ]
}

fn sorts_of_command(line: &Line) -> Vec<(&'static str, bool)> {
    let letters = &line.letters;
    let name = first_word(letters);
    let small = name.iter().any(u8::is_ascii_lowercase);
    let capital = name.iter().any(u8::is_ascii_uppercase);
    let has = |letter: u8| letters.contains(&letter);
    let glued = letters.windows(2).any(|two| two[0].is_ascii_alphanumeric() && two[1] == b'#');
    let is_odd = |byte: &u8| *byte < 9 || *byte > 127;
    vec![
        ("a name in capital letters", !small),
        ("a name in small letters", !capital),
        ("a name in small and capital letters", small && capital),
        ("a tab", has(b'\t')),
        ("a carriage return", has(b'\r')),
        ("a comment", has(b'#') && !has(b'"')),
        ("a comment at once after a word", glued && !has(b'"')),
        ("# in a text", has(b'"') && has(b'#') && line.written.contains(&b'#')),
        ("an odd byte in a text", has(b'"') && letters.iter().any(is_odd)),
        ("an empty text", letters.windows(2).any(|two| two == b"\"\"")),
        ("$n", has(b'$') && !has(b'"') && !has(b'#')),
    ]
}
