//! What the page says of every answer, looked at without the model.

use crate::decode;
use crate::expected;
use crate::says::LONGEST_LINE;

/// The answers of a run, taken line by line.
struct Printed<'a> {
    rest: std::str::Lines<'a>,
    ordinal: u64,
    help: &'a str,
}

type Audit<T = ()> = Result<T, String>;

/// Walks through the lines and what the desk has printed for them.
pub fn audit(lines: &[&[u8]], printed: &str, help: &str) -> Audit {
    let mut printed = Printed { rest: printed.lines(), ordinal: 0, help };
    for (index, line) in lines.iter().enumerate() {
        let words = plain_words(line);
        if words.is_empty() && line.len() <= LONGEST_LINE {
            continue;
        }
        if words.len() == 1 && words[0] == b"QUIT" {
            break;
        }
        let answered = printed.answer(index + 1, line, &words);
        answered.map_err(|fault| format!("line {}: {fault}", index + 1))?;
    }
    match printed.rest.next() {
        None => Ok(()),
        Some(more) => Err(format!("after the last answer: {more}")),
    }
}

/// The words outside texts, in capital letters; enough to know what a good line asks for.
fn plain_words(line: &[u8]) -> Vec<Vec<u8>> {
    let before_comment = line.split(|&letter| letter == b'#').next().unwrap_or_default();
    let words = before_comment.split(|letter| b" \t\r".contains(letter));
    words.filter(|word| !word.is_empty()).map(<[u8]>::to_ascii_uppercase).collect()
}

impl<'a> Printed<'a> {
    fn next(&mut self) -> Audit<&'a str> {
        self.rest.next().ok_or("no answer".to_string())
    }

    fn answer(&mut self, number: usize, line: &[u8], words: &[Vec<u8>]) -> Audit {
        let first = self.rest.clone().next().ok_or("no answer")?;
        if first.starts_with("line ") {
            self.next()?;
            return bad_line(first, number, line.len());
        }
        match words.first().map_or(&[][..], Vec::as_slice) {
            b"WHO" => self.who(),
            b"HELP" => self.help(),
            b"!" => (0..raw_commands(&words[1..])).try_for_each(|_| self.command()),
            _ => self.command(),
        }
    }

    fn who(&mut self) -> Audit {
        let first = self.next()?;
        let count = first.strip_prefix("active users: ").and_then(|rest| rest.strip_suffix(" of 16"));
        let count: usize = count.and_then(|count| count.parse().ok()).ok_or(format!("to who: {first}"))?;
        for _ in 0..count {
            let row = self.next()?;
            let known = row.replace("missing", "present");
            let held = ": transmit key present, receive key present, transmit IV present, receive IV present";
            let user = known.strip_suffix(held).ok_or(format!("to who: {row}"))?;
            user.parse::<u32>().map_err(|_| format!("to who: {row}"))?;
        }
        Ok(())
    }

    fn help(&mut self) -> Audit {
        for wanted in self.help.lines() {
            if self.next()? != wanted {
                return Err("help says now this and now that".to_string());
            }
        }
        Ok(())
    }

    /// NOTARY's line with the next ordinal, and the line of words.
    fn command(&mut self) -> Audit {
        let (line, words) = (self.next()?, self.next()?);
        self.ordinal += 1;
        let parts: Vec<&str> = line.split(' ').collect();
        let &[ordinal, tag, reply, bytes] = parts.as_slice() else {
            return Err(format!("no line of NOTARY: {line}"));
        };
        let hex = |text: &str| text.bytes().all(|digit| matches!(digit, b'0'..=b'9' | b'A'..=b'F'));
        let number: u8 = reply.parse().map_err(|_| format!("no reply: {line}"))?;
        let well = ordinal == self.ordinal.to_string()
            && tag.len() == 2
            && hex(tag)
            && number <= 17
            && (bytes == "-" || hex(bytes) && bytes.len() % 2 == 0 && number == 0);
        let told = words.strip_prefix("    ").unwrap_or_default();
        let fits = if number == 0 { told.ends_with(" done") } else { told.contains(" refused: ") };
        if well && fits {
            Ok(())
        } else {
            Err(format!("answered with {line} and {words}"))
        }
    }
}

/// The line's own number, a column in the line or one past it, and one of the page's messages.
fn bad_line(answer: &str, number: usize, length: usize) -> Audit {
    let start = format!("line {number}, column ");
    let rest = answer.strip_prefix(&start).ok_or(format!("not of this line: {answer}"))?;
    let (column, expected) = rest.split_once(": expected ").ok_or(format!("not in form: {answer}"))?;
    let column: usize = column.parse().map_err(|_| format!("no column: {answer}"))?;
    let known = expected::ALL.iter().any(|message| message.words() == expected);
    if known && 1 <= column && column <= length + 1 {
        Ok(())
    } else {
        Err(format!("of {length} letters: {answer}"))
    }
}

/// How many commands stand in the hex digits; the last may be cut.
fn raw_commands(words: &[Vec<u8>]) -> usize {
    let digits: Vec<u8> =
        words.concat().iter().map(|&digit| char::from(digit).to_digit(16).unwrap_or(0) as u8).collect();
    let bytes: Vec<u8> =
        digits.chunks(2).map(|pair| pair.iter().fold(0, |byte, digit| byte << 4 | digit)).collect();
    decode::commands(&bytes).len()
}
