//! What a line says, or what is wrong with it.

use crate::expected::{Expected, Why, Wrong};
use crate::fault::{self, Fault};
use crate::kept::Kept;
use crate::words::{Word, Words};
use model::rules::*;

pub const LONGEST_LINE: usize = 131072;
const LONGEST_DATA: usize = 65500;

pub enum Says {
    Nothing,
    Help,
    Who,
    Quit,
    Command(&'static Rule, Arguments),
    Raw(Vec<u8>),
}

/// The name by which a line calls the command.
pub fn name_of(rule: &Rule) -> &'static str {
    if rule.tag == HOST_LOGOUT {
        "LOGOUT"
    } else {
        rule.name
    }
}

fn rule_named(name: &[u8]) -> Option<&'static Rule> {
    let rule = RULES.iter().find(|rule| name_of(rule).as_bytes() == name)?;
    let neighbour = fault::on(Fault::NeighboursTag) && rule.tag == CBCE;
    rule_of(rule.tag + u8::from(neighbour))
}

/// A line that is too long is wrong one past its last letter, where it is not wrong before.
pub fn says(line: &[u8], kept: &Kept) -> Result<Says, Wrong> {
    if line.len() > LONGEST_LINE {
        let long = Wrong::at(LONGEST_LINE, Expected::NothingMore, Why::LongLine);
        let before = read(&line[..LONGEST_LINE], kept).err();
        return Err(before.filter(|wrong| wrong.column <= LONGEST_LINE).unwrap_or(long));
    }
    read(line, kept)
}

fn read(line: &[u8], kept: &Kept) -> Result<Says, Wrong> {
    let mut words = Words::of(line);
    let Some(first) = words.next()? else {
        return Ok(Says::Nothing);
    };
    let said = match name(&first).as_slice() {
        b"HELP" => Says::Help,
        b"WHO" => Says::Who,
        b"QUIT" => Says::Quit,
        b"!" => Says::Raw(raw(&mut words)?),
        name => {
            let none = Wrong::at(first.start, Expected::Command, Why::NoName);
            let rule = rule_named(name).ok_or(none)?;
            Says::Command(rule, arguments(rule, &mut words, kept)?)
        }
    };
    match words.next()? {
        Some(word) => Err(Wrong::at(word.start, Expected::NothingMore, Why::TooMany)),
        None => Ok(said),
    }
}

/// The first word in capital letters; a text is no name.
fn name(first: &Word) -> Vec<u8> {
    if first.is_text {
        return Vec::new();
    }
    if fault::on(Fault::SmallNamesRefused) {
        return first.letters.to_vec();
    }
    first.letters.to_ascii_uppercase()
}

fn raw(words: &mut Words) -> Result<Vec<u8>, Wrong> {
    let mut bytes = Vec::new();
    let mut word = words.next()?;
    if word.is_none() && !fault::on(Fault::RawMayBeEmpty) {
        return Err(Wrong::at(words.missing_at(), Expected::Raw, Why::Missing));
    }
    while let Some(plain) = word {
        if plain.is_text {
            return Err(Wrong::at(plain.start, Expected::Raw, Why::WrongKind));
        }
        bytes.extend(hex_pairs(&plain, Expected::Raw)?);
        word = words.next()?;
    }
    Ok(bytes)
}

fn arguments(rule: &Rule, words: &mut Words, kept: &Kept) -> Result<Arguments, Wrong> {
    let mut given = Arguments::default();
    for &field in rule.form {
        let expected = expected_for(field);
        let word = match words.next() {
            Err(wrong) if fault::on(Fault::QuoteOnlyInData) && field != DATA => {
                return Err(Wrong { column: words.missing_at() + 1, expected, ..wrong });
            }
            word => word?,
        };
        let Some(word) = word else {
            return Err(Wrong::at(words.missing_at(), expected, Why::Missing));
        };
        if word.is_text && field != DATA {
            return Err(Wrong::at(word.start, expected, Why::WrongKind));
        }
        take(&mut given, field, &word, kept)?;
    }
    if fault::on(Fault::IssuerAndPartyExchanged) && rule.form.contains(&PARTY) {
        (given.issuer, given.party) = (given.party, given.issuer);
    }
    if fault::on(Fault::PasswordsExchanged) && rule.tag == CPW {
        (given.block, given.second) = (given.second, given.block);
    }
    Ok(given)
}

fn expected_for(field: u8) -> Expected {
    match field {
        ISSUER | PARTY => Expected::Identifier,
        INTERCHANGE => Expected::Interchange,
        FUNCTION => Expected::Function,
        BLOCK | SECOND => Expected::Block,
        _ => Expected::Data,
    }
}

fn take(given: &mut Arguments, field: u8, word: &Word, kept: &Kept) -> Result<(), Wrong> {
    match field {
        ISSUER => given.issuer = identifier(word)?,
        PARTY => given.party = identifier(word)?,
        INTERCHANGE => given.interchange = interchange(word)?,
        FUNCTION => given.function = function(word)?,
        BLOCK => given.block = block(word, kept)?,
        SECOND => given.second = block(word, kept)?,
        _ => given.data = data(word, kept)?,
    }
    Ok(())
}

fn identifier(word: &Word) -> Result<u32, Wrong> {
    let highest = if fault::on(Fault::IdentifierOf28Bits) { 0x0FFF_FFFF } else { 0xFFFF_FFFF };
    Ok(number(word, highest, Expected::Identifier)? as u32)
}

fn interchange(word: &Word) -> Result<u8, Wrong> {
    let highest = if fault::on(Fault::InterchangeWraps) { 0xFFFF } else { 0xFF };
    Ok(number(word, highest, Expected::Interchange)? as u8)
}

fn number(word: &Word, highest: u64, expected: Expected) -> Result<u64, Wrong> {
    if let Some(index) = word.letters.iter().position(|letter| !letter.is_ascii_digit()) {
        return Err(Wrong::at(word.start + index, expected, Why::NoDigit));
    }
    let too_large = Wrong::at(word.start, expected, Why::TooLarge);
    decimal(word.letters).filter(|&number| number <= highest).ok_or(too_large)
}

/// The number that the digits say; None where it is above 4294967295.
fn decimal(digits: &[u8]) -> Option<u64> {
    if fault::on(Fault::LeadingZerosCounted) && digits.len() > 10 {
        return None;
    }
    let number = digits
        .iter()
        .fold(0u64, |number, digit| number.saturating_mul(10).saturating_add(u64::from(digit - b'0')));
    (number <= 0xFFFF_FFFF).then_some(number)
}

fn function(word: &Word) -> Result<u8, Wrong> {
    match word.letters {
        [function @ (b't' | b'r' | b's')] => Ok(*function),
        [b'T'] if fault::on(Fault::CapitalFunction) => Ok(b't'),
        _ => Err(Wrong::at(word.start, Expected::Function, Why::NoFunction)),
    }
}

/// The bytes of answer n, where the word is `$n`.
fn answer<'k>(word: &Word, kept: &'k Kept, expected: Expected) -> Result<&'k [u8], Wrong> {
    let digits = &word.letters[1..];
    let wrong = |index: usize, why: Why| Err(Wrong::at(word.start + index, expected, why));
    if digits.is_empty() {
        return wrong(1, Why::NoNumber);
    }
    if let Some(index) = digits.iter().position(|letter| !letter.is_ascii_digit()) {
        return wrong(1 + index, Why::NoDigitAfterDollar);
    }
    let Some(n) = decimal(digits) else {
        return wrong(0, Why::DollarTooLarge);
    };
    kept.bytes(n).or_else(|why| wrong(0, why))
}

fn block(word: &Word, kept: &Kept) -> Result<u64, Wrong> {
    let bytes = if word.letters.starts_with(b"$") {
        let bytes = answer(word, kept, Expected::Block)?;
        if bytes.len() != 8 && !fault::on(Fault::AnyAnswerAsBlock) {
            return Err(Wrong::at(word.start, Expected::Block, Why::NotEightBytes));
        }
        bytes.to_vec()
    } else {
        sixteen_digits(word)?
    };
    Ok(bytes.iter().take(8).fold(0, |block, &byte| block << 8 | u64::from(byte)))
}

fn sixteen_digits(word: &Word) -> Result<Vec<u8>, Wrong> {
    let first = Word { letters: &word.letters[..word.letters.len().min(16)], ..*word };
    if let Some(index) = no_hex_digit(first.letters) {
        return Err(Wrong::at(word.start + index, Expected::Block, Why::NoHexDigit));
    }
    if word.letters.len() > 16 && !fault::on(Fault::LongBlockTaken) {
        return Err(Wrong::at(word.start + 16, Expected::Block, Why::Seventeenth));
    }
    if word.letters.len() < 16 {
        return Err(Wrong::at(word.end(), Expected::Block, Why::DigitsLacking));
    }
    hex_pairs(&first, Expected::Block)
}

fn data(word: &Word, kept: &Kept) -> Result<Vec<u8>, Wrong> {
    let bytes = if word.is_text {
        word.letters.to_vec()
    } else if word.letters.starts_with(b"$") {
        answer(word, kept, Expected::Data)?.to_vec()
    } else {
        hex_pairs(word, Expected::Data)?
    };
    if bytes.len() > LONGEST_DATA {
        return Err(Wrong::at(word.start, Expected::ShorterData, Why::TooLong));
    }
    Ok(bytes)
}

fn no_hex_digit(letters: &[u8]) -> Option<usize> {
    letters.iter().position(|letter| !letter.is_ascii_hexdigit())
}

fn hex_pairs(word: &Word, expected: Expected) -> Result<Vec<u8>, Wrong> {
    if let Some(index) = no_hex_digit(word.letters) {
        return Err(Wrong::at(word.start + index, expected, Why::NoHexDigit));
    }
    if word.letters.len() % 2 == 1 && !fault::on(Fault::OddDigitsTaken) {
        return Err(Wrong::at(word.end(), expected, Why::DigitsLacking));
    }
    Ok(word.letters.chunks_exact(2).map(byte_of).collect())
}

fn byte_of(pair: &[u8]) -> u8 {
    let [high, low] = [pair[0], pair[1]].map(|digit| char::from(digit).to_digit(16).unwrap_or(0) as u8);
    if fault::on(Fault::HexDigitsExchanged) {
        return low << 4 | high;
    }
    high << 4 | low
}
