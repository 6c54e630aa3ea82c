//! The model of the desk: a line goes in, its answer comes out.

use crate::expected::Wrong;
use crate::fault::{self, Fault};
use crate::kept::Kept;
use crate::says::{name_of, says, Says};
use model::facility::{Place, Side};
use model::notary::{Notary, Reply};
use model::refusals::{CUT, FORM};
use model::rules::rule_of;
use model::{stream, write};

/// What a reply means, in the page's words.
const WORDS: [&str; 17] = [
    "identifier (issuer or party) above 268435455",
    "table length not a multiple of 12, or above 49152",
    "issuer not active",
    "already active",
    "key function not t, r or s; in LDK and RDK also where s and \"party equals issuer\" do not agree",
    "interchange not 1 to 15, or a key of it that the command needs is missing",
    "out of turn: RAS, CPW, IPW, or EIK of name 1 while DUE; RPW while not DUE, or while current or old key 1 is missing",
    "all 16 places taken",
    "not authenticated",
    "key of the needed side missing",
    "its IV missing",
    "data length: 0 or above 32768, and for all but DAUT also not a multiple of 8",
    "output buffer shorter than the data",
    "some byte of the entered key has even parity",
    "no free entry and no entry of the user",
    "form",
    "cut",
];

/// What became of a line.
#[derive(Clone, PartialEq)]
pub enum Outcome {
    Empty,
    Bad(Wrong),
    Help,
    Who,
    Quit,
    Answered(Vec<(u8, Reply)>),
    /// It comes after `quit`.
    Unread,
}

#[derive(Clone)]
pub struct Desk {
    pub notary: Notary,
    pub kept: Kept,
    pub ordinal: u64,
    pub line: u64,
    /// The bytes that the scribe writes for the last line.
    pub written: Vec<u8>,
    scribe: bool,
}

impl Desk {
    pub fn fresh() -> Desk {
        let (kept, written) = Default::default();
        Desk { notary: Notary::fresh(), kept, ordinal: 0, line: 0, written, scribe: false }
    }

    pub fn of_scribe() -> Desk {
        Desk { scribe: true, ..Desk::fresh() }
    }

    /// Reads one line, without its line feed, and carries out what it says; the answer is text.
    pub fn take(&mut self, line: &[u8]) -> (Outcome, String) {
        self.line += 1;
        self.written.clear();
        match says(line, &self.kept) {
            Ok(said) => self.obey(said),
            Err(mut wrong) => {
                if fault::on(Fault::ColumnInCharacters) {
                    let before = &line[..line.len().min(wrong.column - 1)];
                    wrong.column -= before.iter().filter(|&&byte| byte & 0xC0 == 0x80).count();
                }
                self.ordinal += u64::from(fault::on(Fault::BadLineHasOrdinal));
                (Outcome::Bad(wrong), wrong.answer(self.line))
            }
        }
    }

    fn obey(&mut self, said: Says) -> (Outcome, String) {
        match said {
            Says::Nothing => {
                self.line -= u64::from(fault::on(Fault::EmptyLinesNotCounted));
                (Outcome::Empty, String::new())
            }
            Says::Help => (Outcome::Help, help()),
            Says::Who => (Outcome::Who, self.who()),
            Says::Quit => (Outcome::Quit, String::new()),
            Says::Command(rule, given) => {
                self.written = write::command(rule.tag, &given);
                if fault::on(Fault::HighByteLost) {
                    self.written[1] = 0;
                }
                let reply = self.notary.obey(rule, &given);
                self.answer(vec![(rule.tag, reply)])
            }
            Says::Raw(bytes) => {
                self.written = bytes;
                if self.scribe && fault::on(Fault::ScribeForgetsRaw) {
                    return (Outcome::Answered(Vec::new()), String::new());
                }
                let mut replies = stream::replies(&mut self.notary, &self.written);
                if fault::on(Fault::FormEndsRawLine) {
                    let whole = replies.iter().take_while(|(_, reply)| reply.number() != FORM).count();
                    replies.truncate(whole + 1);
                }
                self.answer(replies)
            }
        }
    }

    fn answer(&mut self, replies: Vec<(u8, Reply)>) -> (Outcome, String) {
        let mut text = String::new();
        for (tag, reply) in &replies {
            self.ordinal += 1;
            self.kept.keep(&reply.bytes);
            let number = reply.number();
            if fault::on(Fault::RawCountedOnce) && !text.is_empty() {
                self.ordinal -= 1;
            }
            text += &format!("{} {tag:02X} {number} {}\n", self.ordinal, shown(&reply.bytes));
            text += &format!("    {} {}\n", command_name(*tag), words_of(number));
        }
        (Outcome::Answered(replies), text)
    }

    /// Whether the desk ends after this outcome.
    pub fn ends(outcome: &Outcome) -> bool {
        match outcome {
            Outcome::Quit => !fault::on(Fault::QuitDoesNotEnd),
            Outcome::Answered(replies) if fault::on(Fault::CutEndsDesk) => {
                replies.iter().any(|(_, reply)| reply.number() == CUT)
            }
            _ => false,
        }
    }

    fn who(&self) -> String {
        let mut places: Vec<&Place> = self.notary.facility.places.iter().flatten().collect();
        if fault::on(Fault::WhoInOrderOfIdentifiers) {
            places.sort_by_key(|place| place.identifier);
        }
        let rows: String = places.iter().map(|place| row_of(place)).collect();
        format!("active users: {} of 16\n{rows}", places.len())
    }
}

/// Upper-case hex, or "-" for none.
pub fn shown(bytes: &[u8]) -> String {
    if bytes.is_empty() {
        return "-".to_string();
    }
    bytes.iter().map(|byte| format!("{byte:02X}")).collect()
}

fn command_name(tag: u8) -> &'static str {
    rule_of(tag).map_or("unknown tag", name_of)
}

fn words_of(number: u8) -> String {
    let shift = u8::from(fault::on(Fault::WordsOfNeighbour) && number == 10);
    match (number + shift).checked_sub(1) {
        None => "done".to_string(),
        Some(index) => format!("refused: {}", WORDS[usize::from(index)]),
    }
}

fn row_of(place: &Place) -> String {
    let (mut transmit, mut receive) = (place.transmit, place.receive);
    if fault::on(Fault::SidesExchangedInWho) {
        (transmit, receive) = (receive, transmit);
    }
    let told = |held: Option<u64>| if held.is_some() { "present" } else { "missing" };
    let key = |side: &Side| told(side.key);
    let iv = |side: &Side| told(side.iv);
    format!(
        "{}: transmit key {}, receive key {}, transmit IV {}, receive IV {}\n",
        place.identifier,
        key(&transmit),
        key(&receive),
        iv(&transmit),
        iv(&receive)
    )
}

/// The page leaves the words of help to the desk, but for this: the commands with their arguments.
fn help() -> String {
    let argument = |field: &u8| match field {
        0x81 => " USER",
        0x82 => " PARTY",
        0x83 => " INTERCHANGE",
        0x84 => " t|r|s",
        0x85 | 0x86 => " BLOCK",
        _ => " DATA",
    };
    let row = |rule: &model::rules::Rule| {
        format!("{}{}\n", name_of(rule), rule.form.iter().map(argument).collect::<String>())
    };
    model::rules::RULES
        .iter()
        .map(row)
        .chain(["! HEX\n", "help\n", "who\n", "quit\n"].map(String::from))
        .collect()
}
