//! A decoder of the command stream for the tests: document 01's grammar, once more and apart.

use model::rules::{Arguments, FUNCTION, INTERCHANGE};

/// The fields that each command has, in ascending tags, as the page's last table of forms gives them.
pub fn form(tag: u8) -> Option<&'static [u8]> {
    Some(match tag {
        0x01 | 0x06 | 0x08 | 0x21 => &[0x81, 0x85],
        0x02 | 0x23 => &[0x81],
        0x03 => &[0x81, 0x85, 0x86],
        0x04 => &[0x81, 0x82, 0x83, 0x85],
        0x05 | 0x09 => &[0x81, 0x82, 0x83, 0x84, 0x85],
        0x07 => &[0x81, 0x84, 0x85],
        0x0A..=0x0F => &[0x81, 0x87],
        0x10 => &[0x81, 0x84, 0x87],
        0x20 => &[0x83, 0x85],
        0x22 => &[],
        _ => return None,
    })
}

/// The field at the front, and how many bytes it takes; None where it is cut.
fn front(bytes: &[u8]) -> Option<(u8, &[u8], usize)> {
    let &[tag, high, low, ..] = bytes else {
        return None;
    };
    let end = 3 + 256 * usize::from(high) + usize::from(low);
    (end <= bytes.len()).then(|| (tag, &bytes[3..end], end))
}

/// The stream cut into its commands; the last may be a piece of one.
pub fn commands(stream: &[u8]) -> Vec<&[u8]> {
    let mut at = 0;
    let mut found = Vec::new();
    while at < stream.len() {
        let length = front(&stream[at..]).map_or(stream.len() - at, |front| front.2);
        found.push(&stream[at..at + length]);
        at += length;
    }
    found
}

/// The tag and the arguments of one whole command of the right form.
pub fn decoded(command: &[u8]) -> Option<(u8, Arguments)> {
    let (tag, value, length) = front(command)?;
    if length != command.len() {
        return None;
    }
    let mut given = Arguments::default();
    let mut at = 0;
    for &wanted in form(tag)? {
        let (field, value, length) = front(&value[at..])?;
        if field != wanted || !put(&mut given, field, value) {
            return None;
        }
        at += length;
    }
    (at == value.len()).then_some((tag, given))
}

/// Whether the value has the field's length; then it stands in the arguments.
fn put(given: &mut Arguments, field: u8, value: &[u8]) -> bool {
    match (field, value) {
        (0x81, &[a, b, c, d]) => given.issuer = u32::from_be_bytes([a, b, c, d]),
        (0x82, &[a, b, c, d]) => given.party = u32::from_be_bytes([a, b, c, d]),
        (INTERCHANGE, &[name]) => given.interchange = name,
        (FUNCTION, &[function]) => given.function = function,
        (0x85, &[a, b, c, d, e, f, g, h]) => given.block = u64::from_be_bytes([a, b, c, d, e, f, g, h]),
        (0x86, &[a, b, c, d, e, f, g, h]) => given.second = u64::from_be_bytes([a, b, c, d, e, f, g, h]),
        (0x87, data) => given.data = data.to_vec(),
        _ => return false,
    }
    true
}
