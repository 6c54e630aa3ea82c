//! Writing commands as the stream has them.

use crate::rules::*;

pub fn field(tag: u8, value: &[u8]) -> Vec<u8> {
    let length = u16::try_from(value.len()).expect("a field's length has two bytes");
    [&[tag], &length.to_be_bytes()[..], value].concat()
}

fn value(tag: u8, given: &Arguments) -> Vec<u8> {
    match tag {
        ISSUER => given.issuer.to_be_bytes().to_vec(),
        PARTY => given.party.to_be_bytes().to_vec(),
        INTERCHANGE => vec![given.interchange],
        FUNCTION => vec![given.function],
        BLOCK => given.block.to_be_bytes().to_vec(),
        SECOND => given.second.to_be_bytes().to_vec(),
        _ => given.data.clone(),
    }
}

/// One argument field.
pub fn argument(tag: u8, given: &Arguments) -> Vec<u8> {
    field(tag, &value(tag, given))
}

/// The argument fields of the command, in ascending tags.
pub fn arguments(tag: u8, given: &Arguments) -> Vec<Vec<u8>> {
    let form = rule_of(tag).map_or(&[][..], |rule| rule.form);
    form.iter().map(|&wanted| argument(wanted, given)).collect()
}

pub fn command(tag: u8, given: &Arguments) -> Vec<u8> {
    field(tag, &arguments(tag, given).concat())
}
