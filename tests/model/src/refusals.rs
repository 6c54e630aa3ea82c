//! The refusal numbers: when each applies, and which of them is given.

use crate::facility::{ENTRY_LENGTH, FREE, HIGHEST_IDENTIFIER};
use crate::notarize::some_byte_is_even;
use crate::notary::Notary;
use crate::rules::*;

pub const FORM: u8 = 16;
pub const CUT: u8 = 17;

const LONGEST_TABLE: usize = 49152;
pub const LONGEST_DATA: usize = 32768;

/// All refusals of the command's own list that apply.
pub fn that_apply(notary: &Notary, rule: &Rule, given: &Arguments) -> Vec<u8> {
    let list = rule.refusals.iter().copied();
    list.filter(|&number| applies(notary, number, rule.tag, given)).collect()
}

fn applies(notary: &Notary, number: u8, tag: u8, given: &Arguments) -> bool {
    let facility = &notary.facility;
    let table = &notary.table;
    let mut place = facility.place(given.issuer).unwrap_or_default();
    let side = place.side(uses_receive_side(tag, given.function));
    match number {
        1 => given.issuer > HIGHEST_IDENTIFIER || given.party > HIGHEST_IDENTIFIER,
        2 => !table.0.len().is_multiple_of(ENTRY_LENGTH) || table.0.len() > LONGEST_TABLE,
        3 => facility.place_of(given.issuer).is_none(),
        4 => facility.place_of(given.issuer).is_some(),
        5 => function_is_refused(tag, given),
        6 => key_is_missing(notary, tag, given),
        7 => out_of_turn(notary, tag, given),
        8 => facility.free_place().is_none(),
        9 => !notary.authenticates(given.issuer, given.block),
        10 => side.key.is_none(),
        11 => side.iv.is_none(),
        12 => length_is_refused(tag, given.data.len()),
        13 => notary.output_length < given.data.len(),
        14 => some_byte_is_even(given.block),
        15 => table.entry_of(given.issuer).or(table.entry_of(FREE)).is_none(),
        _ => unreachable!("no list has the number {number}"),
    }
}

/// Not t, r or s; in LDK and RDK also where s and "party equals issuer" do not agree.
fn function_is_refused(tag: u8, given: &Arguments) -> bool {
    let known = matches!(given.function, b't' | b'r' | b's');
    let personal = given.function == b's';
    !known || matches!(tag, LDK | RDK) && personal != (given.party == given.issuer)
}

/// Interchange not 1 to 15, or a key of it that the command needs is missing.
fn key_is_missing(notary: &Notary, tag: u8, given: &Arguments) -> bool {
    let facility = &notary.facility;
    let name = given.interchange;
    match tag {
        EIK => facility.interchange(name).is_none(),
        RAS | CPW | IPW => facility.current_key(1).is_none(),
        RDK => facility.current_key(name).is_none() || facility.old_key(name).is_none(),
        _ => facility.current_key(name).is_none(),
    }
}

fn out_of_turn(notary: &Notary, tag: u8, given: &Arguments) -> bool {
    let facility = &notary.facility;
    match tag {
        EIK => facility.due && given.interchange == 1,
        RPW => !facility.due || facility.current_key(1).is_none() || facility.old_key(1).is_none(),
        _ => facility.due,
    }
}

/// 0 or above 32768, and for all but DAUT also not a multiple of 8.
fn length_is_refused(tag: u8, length: usize) -> bool {
    length == 0 || length > LONGEST_DATA || tag != DAUT && !length.is_multiple_of(8)
}
