//! Lines that are wrong, or nearly so.

use crate::desk::Desk;
use crate::says::name_of;
use crate::spell::{blanks, comment, hex, joined, letters, quoted, some_case};
use model::random::Random;
use model::rules::RULES;

const LETTERS: &[u8] = b" \t\r#\"$!0123456789abfgABFGtrsTxRASL\x00\xFF\x80,.-";

/// Tokens that have their place somewhere, or nearly.
const TOKENS: [&str; 44] = [
    "0",
    "1",
    "5",
    "00",
    "007",
    "255",
    "256",
    "300",
    "268435455",
    "268435456",
    "4294967295",
    "4294967296",
    "99999999999999999999999999999999999999999",
    "12a",
    "a12",
    "1,2",
    "-1",
    "t",
    "r",
    "s",
    "T",
    "R",
    "S",
    "tt",
    "x",
    "help",
    "who",
    "QUIT",
    "!",
    "$",
    "$0",
    "$1",
    "$x",
    "$1x",
    "$$",
    "$4294967295",
    "$4294967296",
    "$99999999999999999999999999",
    "\"\"",
    "\"abc\"",
    "\"a#b\"",
    "\"open",
    "\"a\"b",
    "0x12",
];

/// One letter of the line replaced, taken away, or one put in.
pub fn changed(random: &mut Random, line: &[u8]) -> Vec<u8> {
    let mut line = line.to_vec();
    let letter = if random.chance(85) { random.pick(LETTERS) } else { letters(random, 1)[0] };
    let at = random.below(line.len() + 1);
    match random.below(3) {
        0 if at < line.len() => line[at] = letter,
        1 if at < line.len() => drop(line.remove(at)),
        _ => line.insert(at, letter),
    }
    line
}

/// A word from anywhere.
fn some_word(random: &mut Random, desk: &Desk) -> Vec<u8> {
    match random.below(8) {
        0 => {
            let rule = &RULES[random.below(RULES.len())];
            some_case(random, name_of(rule).as_bytes())
        }
        1 => {
            let length = random.pick(&[1, 2, 6, 7, 8, 8, 8, 9, 16]);
            let bytes = random.bytes(length);
            let mut digits = hex(random, &bytes);
            digits.truncate(digits.len() - usize::from(random.chance(30)));
            digits
        }
        2 | 3 => {
            let n = random.below(desk.ordinal as usize + 3);
            format!("${n}").into_bytes()
        }
        4 => {
            let length = random.below(12);
            quoted(&letters(random, length))
        }
        _ => random.pick(&TOKENS).as_bytes().to_vec(),
    }
}

/// The words of a good line with one of them replaced, left out, put in, or exchanged with the next.
pub fn reworded(random: &mut Random, desk: &Desk, words: &[Vec<u8>]) -> Vec<u8> {
    let mut words = words.to_vec();
    let at = random.below(words.len());
    match random.below(6) {
        0 => drop(words.remove(at)),
        1 => words.insert(at + 1, some_word(random, desk)),
        2 if at > 0 => words.swap(at - 1, at),
        3 => words.truncate(at),
        _ => words[at] = some_word(random, desk),
    }
    joined(random, &words)
}

/// A line from nowhere: words in any order, bytes of any kind, or nothing.
pub fn random_line(random: &mut Random, desk: &Desk) -> Vec<u8> {
    match random.below(6) {
        0 => {
            let length = random.below(40);
            letters(random, length)
        }
        1 => some_empty_line(random),
        2 => {
            let words = [random.pick(&["help", "WHO", "who", "Help", "wHo"]).as_bytes().to_vec()];
            joined(random, &words)
        }
        _ => {
            let words: Vec<Vec<u8>> = (0..random.between(1, 6)).map(|_| some_word(random, desk)).collect();
            joined(random, &words)
        }
    }
}

fn some_empty_line(random: &mut Random) -> Vec<u8> {
    match random.below(4) {
        0 => Vec::new(),
        1 => blanks(random),
        2 => comment(random),
        _ => [blanks(random), comment(random)].concat(),
    }
}
