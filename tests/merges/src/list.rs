//! One user's list of commands: most of them get done, some are wrong in one argument.

use crate::command::*;
use crate::random::Random;
use crate::user::{Lack, User, HIGHEST};

/// What users know of the facility.
pub struct Facility {
    /// Interchanges with a current key, and those of them that also have an old one.
    pub keyed: Vec<u8>,
    pub moved: Vec<u8>,
    /// Interchanges with no key, and numbers that are none.
    pub keyless: Vec<u8>,
    pub identifiers: Vec<u32>,
}

/// Tags in the frequency wanted of a user who is active.
const FREQUENT: [u8; 42] = [
    1, 2, 3, 3, 3, 4, 4, 4, 5, 5, 5, 5, 6, 6, 7, 7, 7, 8, 8, 9, 9, 9, 9, 10, 10, 11, 11, 12, 12, 12, 13, 13,
    13, 14, 14, 14, 15, 15, 15, 16, 16, 16,
];

/// At most so many commands, in at most so many bytes.
pub fn list(
    random: &mut Random,
    facility: &Facility,
    user: &mut User,
    owner: usize,
    most: usize,
    room: usize,
) -> Vec<Command> {
    let care = random.pick(&[30, 80, 80, 90]);
    let mut list = Vec::new();
    for number in 0..most {
        let tag = some_tag(random, user, number);
        let (tag, given) = with_care(random, facility, user, care, tag);
        let command = finished(random, facility, user, owner, tag, given);
        if length(&list) + command.bytes.len() > room {
            break;
        }
        list.push(command);
    }
    list
}

/// Who cannot come asks for all in turn.
fn some_tag(random: &mut Random, user: &User, number: usize) -> u8 {
    if user.active || user.admitted {
        random.pick(&FREQUENT)
    } else {
        1 + (number % 16) as u8
    }
}

/// A careful user first asks for what he lacks; care says how often he is.
fn with_care(random: &mut Random, facility: &Facility, user: &User, care: usize, tag: u8) -> (u8, Arguments) {
    let given = fitting(random, facility, user, tag);
    let careful = random.chance(care);
    let (first, side) = match user.lacks(tag, given.function) {
        Lack::Place if careful && user.admitted => (RAS, b't'),
        Lack::Key(side) if careful => (LDK, side),
        Lack::Vector(side) if careful => (LIV, side),
        _ => return (tag, given),
    };
    let mut instead = fitting(random, facility, user, first);
    if instead.function != b's' {
        instead.function = side;
    }
    (first, instead)
}

/// The command as it is sent: now and then misshapen or wrong.
fn finished(
    random: &mut Random,
    facility: &Facility,
    user: &mut User,
    owner: usize,
    tag: u8,
    mut given: Arguments,
) -> Command {
    if random.chance(2) {
        return Command::misshapen(Some(owner), tag, &given);
    }
    if random.chance(15) {
        spoil(random, facility, tag, &mut given);
    } else if matches!(user.lacks(tag, given.function), Lack::Nothing) {
        user.after(tag, &given);
    }
    Command::new(Some(owner), tag, &given)
}

/// Arguments that belong together.
fn fitting(random: &mut Random, facility: &Facility, user: &User, tag: u8) -> Arguments {
    let party = random.pick(&facility.identifiers);
    let shared = matches!(tag, LDK | RDK);
    let function = match (shared, party == user.identifier) {
        (true, true) => b's',
        (true, false) => random.pick(b"tr"),
        _ => random.pick(b"trs"),
    };
    let names = if tag == RDK && random.chance(85) { &facility.moved } else { &facility.keyed };
    let block = if matches!(tag, RAS | CPW) { user.password() } else { random.block() };
    Arguments {
        issuer: user.identifier,
        party,
        interchange: random.pick(names),
        function,
        block,
        second: random.block(),
        data: if matches!(tag, ECBE..=DAUT) { text(random, tag) } else { Vec::new() },
    }
}

/// Whole blocks, mostly few; a fixity value may be asked of any length.
fn text(random: &mut Random, tag: u8) -> Vec<u8> {
    let blocks = if random.chance(3) { random.between(6, 150) } else { random.between(1, 5) };
    let short = if tag == DAUT { random.below(8) } else { 0 };
    random.bytes(8 * blocks - short)
}

/// Makes one argument wrong, where the command has one that can be.
fn spoil(random: &mut Random, facility: &Facility, tag: u8, given: &mut Arguments) {
    match (tag, random.below(4)) {
        (RAS | CPW, _) => given.block ^= 1 << random.below(64),
        (GDK, 0 | 1) | (LDK | RDK, 0) => given.party |= HIGHEST + 1,
        (GDK, _) | (LDK | RDK, 1) => given.interchange = random.pick(&facility.keyless),
        (LDK | RDK, 2) => given.function = if given.function == b's' { b't' } else { b's' },
        (LDK | RDK | LIV, _) | (DAUT, 0 | 1) => given.function = random.pick(&[0, b'T', b'u', 0xF4]),
        (DAUT, _) => given.data.clear(),
        (ECBE..=CFBD, 0) => given.data.clear(),
        (ECBE..=CFBD, _) => given.data.truncate(given.data.len() - random.between(1, 7)),
        _ => {}
    }
}
