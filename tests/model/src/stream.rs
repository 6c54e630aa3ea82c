//! The command stream: fields, forms, and the lines that the program NOTARY prints.

use crate::notary::{Notary, Reply};
use crate::refusals::{CUT, FORM};
use crate::rules::*;
use std::fmt::Write;

pub const LONGEST_INPUT: usize = 65536;
pub const HEADER: usize = 3;

/// One tagged field from the front of the bytes, and what follows it; None where it is cut.
fn field(bytes: &[u8]) -> Option<(u8, &[u8], &[u8])> {
    let header = bytes.get(..HEADER)?;
    let length = usize::from(u16::from_be_bytes([header[1], header[2]]));
    let value = bytes.get(HEADER..HEADER + length)?;
    Some((header[0], value, &bytes[HEADER + length..]))
}

/// The arguments, where the value holds exactly the fields of the form.
fn arguments(form: &[u8], value: &[u8]) -> Option<Arguments> {
    let mut given = Arguments::default();
    let mut rest = value;
    for &wanted in form {
        let (tag, value, after) = field(rest)?;
        let length_fits = field_length(tag).is_none_or(|length| length == value.len());
        if tag != wanted || !length_fits {
            return None;
        }
        given.take(tag, value);
        rest = after;
    }
    rest.is_empty().then_some(given)
}

impl Arguments {
    fn take(&mut self, tag: u8, value: &[u8]) {
        let number = || value.iter().fold(0u64, |number, &byte| number << 8 | u64::from(byte));
        match tag {
            ISSUER => self.issuer = number() as u32,
            PARTY => self.party = number() as u32,
            INTERCHANGE => self.interchange = number() as u8,
            FUNCTION => self.function = number() as u8,
            BLOCK => self.block = number(),
            SECOND => self.second = number(),
            _ => self.data = value.to_vec(),
        }
    }
}

/// A whole command: an unknown tag and a value of another form are 16.
fn reply_to(notary: &mut Notary, tag: u8, value: &[u8]) -> Reply {
    let Some(rule) = rule_of(tag) else {
        return Reply::refused(FORM);
    };
    let Some(given) = arguments(rule.form, value) else {
        return Reply::refused(FORM);
    };
    notary.obey(rule, &given)
}

/// Each command of the stream in turn, with the reply to it; one that is cut is the last.
pub fn replies(notary: &mut Notary, stream: &[u8]) -> Vec<(u8, Reply)> {
    let mut rest = &stream[..stream.len().min(LONGEST_INPUT)];
    let mut given = Vec::new();
    while let Some(&first) = rest.first() {
        let Some((tag, value, after)) = field(rest) else {
            given.push((first, Reply::refused(CUT)));
            break;
        };
        given.push((tag, reply_to(notary, tag, value)));
        rest = after;
    }
    given
}

/// The lines that the program NOTARY prints for the stream.
pub fn run(stream: &[u8]) -> String {
    lines(&replies(&mut Notary::fresh(), stream))
}

/// One line per command: ordinal from 1, tag, reply number, bytes.
pub fn lines(replies: &[(u8, Reply)]) -> String {
    let mut lines = String::new();
    for (n, (tag, reply)) in replies.iter().enumerate() {
        write!(lines, "{} {tag:02X} {} ", n + 1, reply.number()).expect("a string takes all");
        lines.push_str(&shown(&reply.bytes));
        lines.push('\n');
    }
    lines
}

/// Upper-case hex, or "-" for none.
fn shown(bytes: &[u8]) -> String {
    const DIGITS: &[u8; 16] = b"0123456789ABCDEF";
    if bytes.is_empty() {
        return "-".to_string();
    }
    let digits = bytes.iter().flat_map(|byte| [byte >> 4, byte & 15]);
    digits.map(|digit| char::from(DIGITS[usize::from(digit)])).collect()
}
