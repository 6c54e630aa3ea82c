//! A command spelled as a line, in one of the many ways that the page allows.

use crate::kept::Kept;
use crate::says::{name_of, LONGEST_LINE};
use model::random::Random;
use model::rules::*;

const BLANKS: &[u8] = b" \t\r";

/// The words of the command; None where words cannot say it.
pub fn words(random: &mut Random, kept: &Kept, tag: u8, given: &Arguments) -> Option<Vec<Vec<u8>>> {
    let rule = rule_of(tag)?;
    let mut words = vec![some_case(random, name_of(rule).as_bytes())];
    for &field in rule.form {
        words.push(match field {
            ISSUER => number(random, given.issuer),
            PARTY => number(random, given.party),
            INTERCHANGE => number(random, given.interchange.into()),
            FUNCTION if b"trs".contains(&given.function) => vec![given.function],
            FUNCTION => return None,
            BLOCK => bytes(random, kept, &given.block.to_be_bytes()),
            SECOND => bytes(random, kept, &given.second.to_be_bytes()),
            _ => data(random, kept, &given.data)?,
        });
    }
    Some(words)
}

/// Capital letters, small ones, or some of each.
pub fn some_case(random: &mut Random, letters: &[u8]) -> Vec<u8> {
    match random.below(5) {
        0 => letters.to_ascii_lowercase(),
        1 => letters
            .iter()
            .map(|letter| if random.chance(50) { letter.to_ascii_lowercase() } else { *letter })
            .collect(),
        _ => letters.to_vec(),
    }
}

/// Decimal digits, now and then after zeros.
fn number(random: &mut Random, number: u32) -> Vec<u8> {
    let zeros = if random.chance(6) { random.pick(&[1, 2, 7, 30]) } else { 0 };
    format!("{}{number}", "0".repeat(zeros)).into_bytes()
}

pub fn hex(random: &mut Random, bytes: &[u8]) -> Vec<u8> {
    let digits = crate::desk::shown(bytes).into_bytes();
    if bytes.is_empty() {
        return Vec::new();
    }
    some_case(random, &digits)
}

/// Hex digits; or `$n`, where some answer kept has those bytes.
fn bytes(random: &mut Random, kept: &Kept, bytes: &[u8]) -> Vec<u8> {
    let same: Vec<usize> =
        kept.with_bytes().filter(|answer| answer.1 == bytes).map(|answer| answer.0).collect();
    if !same.is_empty() && random.chance(60) {
        let n = random.pick(&same) as u32;
        return [b"$".to_vec(), number(random, n)].concat();
    }
    hex(random, bytes)
}

/// Data that hex digits have no room for is said as a text, and without quotes and line feeds.
fn data(random: &mut Random, kept: &Kept, data: &[u8]) -> Option<Vec<u8>> {
    let long = 2 * data.len() + 100 > LONGEST_LINE;
    let tame = !data.contains(&b'"') && !data.contains(&b'\n');
    if long {
        let letters = data.iter().map(|&byte| if byte == b'"' || byte == b'\n' { b'.' } else { byte });
        return Some(quoted(&letters.collect::<Vec<u8>>()));
    }
    if data.is_empty() || tame && random.chance(50) {
        return tame.then(|| quoted(data));
    }
    Some(bytes(random, kept, data))
}

pub fn quoted(letters: &[u8]) -> Vec<u8> {
    [b"\"", letters, b"\""].concat()
}

/// The words with blanks between them; some lines have more around them, or a comment.
pub fn joined(random: &mut Random, words: &[Vec<u8>]) -> Vec<u8> {
    let mut line = if random.chance(10) { blanks(random) } else { Vec::new() };
    for (index, word) in words.iter().enumerate() {
        if index > 0 {
            line.extend(if random.chance(85) { vec![b' '] } else { blanks(random) });
        }
        line.extend(word);
    }
    if random.chance(15) {
        line.extend(blanks(random));
    }
    if random.chance(12) {
        line.extend(comment(random));
    }
    line
}

pub fn blanks(random: &mut Random) -> Vec<u8> {
    (0..random.between(1, 3)).map(|_| random.pick(BLANKS)).collect()
}

pub fn comment(random: &mut Random) -> Vec<u8> {
    let length = random.below(20);
    [b"#".to_vec(), letters(random, length)].concat()
}

/// Bytes of any kind but the line feed.
pub fn letters(random: &mut Random, length: usize) -> Vec<u8> {
    random.bytes(length).into_iter().map(|byte| if byte == b'\n' { b'#' } else { byte }).collect()
}

/// The bytes as a raw line, in one word or several.
pub fn raw(random: &mut Random, bytes: &[u8]) -> Vec<Vec<u8>> {
    let mut words = vec![b"!".to_vec()];
    let mut rest = bytes;
    while !rest.is_empty() {
        let length = if random.chance(60) { rest.len() } else { random.between(1, rest.len()) };
        words.push(hex(random, &rest[..length]));
        rest = &rest[length..];
    }
    words
}
